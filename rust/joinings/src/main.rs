//! How the groups of a graph joined: the log of the joinings in words, with the figures that decided, and the groups.
mod figures;
mod text;

use figures::{Groups, Lists};
use std::fmt::Write;

const HELP: &str = include_str!("../help.txt");
const EXAMPLE: &[u8] = include_bytes!("../example.txt");

/// What is printed of a text.
fn shown(bytes: &[u8]) -> Result<String, yelomawin::Refusal> {
    let graph = text::read(bytes)?;
    let grouping = yelomawin::group_log(graph.group_size as usize, &graph.offsets, &graph.neighbours)?;
    let lists = Lists { offsets: &graph.offsets, neighbours: &graph.neighbours };
    let mut groups = Groups::grown(&lists, graph.group_size as usize);
    let mut out = String::new();
    for joining in &grouping.joinings {
        writeln!(out, "{}", groups.told(&lists, joining)).unwrap();
        groups.join(joining);
    }
    if grouping.joinings.is_empty() {
        writeln!(out, "no group joins another").unwrap();
    }
    assert_eq!(groups.numbered(), grouping.ids, "the log leads to the groups");
    writeln!(out, "groups {}", grouping.groups).unwrap();
    for (node, id) in grouping.ids.iter().enumerate() {
        writeln!(out, "{node} {id}").unwrap();
    }
    Ok(out)
}

fn run() -> Result<String, String> {
    let args: Vec<_> = std::env::args_os().skip(1).collect();
    let (name, bytes) = match &args[..] {
        [] => ("the example".into(), EXAMPLE.to_vec()),
        [option] if option == "--help" || option == "-h" => return Ok(HELP.into()),
        [option] if option.as_encoded_bytes().starts_with(b"-") => return Err(format!("no option '{}'\n{HELP}", option.display())),
        [file] => (file.display().to_string(), std::fs::read(file).map_err(|e| format!("{}: {e}", file.display()))?),
        _ => return Err(format!("one file at a time\n{HELP}")),
    };
    shown(&bytes).map_err(|r| format!("{name}: refused: {}", explained(&r)))
}

/// A refusal in the terms of the text.
fn explained(r: &yelomawin::Refusal) -> String {
    use yelomawin::Refusal;
    match r {
        Refusal::TooLarge => "too large: at most 256 nodes and 2,048 neighbours are taken (cause 1)".into(),
        Refusal::NeighbourOffsets => {
            "the text must be decimal numbers: the nodes, the group size, then for each node how many neighbours it lists, and which, and nothing more (cause 27)".into()
        }
        r => r.to_string(),
    }
}

fn main() {
    match run() {
        Ok(text) => print!("{text}"),
        Err(e) => {
            eprintln!("{}", e.trim_end());
            std::process::exit(1);
        }
    }
}
