//! The program as a student meets it: the example, the figures of every rule, graphs that are refused.
use std::process::{Command, Output};
use std::sync::atomic::{AtomicUsize, Ordering};

fn run(args: &[&str]) -> Output {
    Command::new(env!("CARGO_BIN_EXE_joinings")).args(args).output().unwrap()
}

fn out(o: &Output) -> &str {
    std::str::from_utf8(&o.stdout).unwrap()
}

/// What the program makes of a text in a file of its own that is gone afterwards: tests run side by side.
fn of(name: &str, text: &str) -> Output {
    static FILES: AtomicUsize = AtomicUsize::new(0);
    let path = std::env::temp_dir().join(format!("joinings-{}-{}-{name}", std::process::id(), FILES.fetch_add(1, Ordering::Relaxed)));
    std::fs::write(&path, text).unwrap();
    let o = run(&[path.to_str().unwrap()]);
    std::fs::remove_file(path).unwrap();
    o
}

/// Paths one after the other, then single nodes with what they list, as a text.
fn text(size: usize, paths: &[usize], more: &[&[usize]]) -> String {
    let mut lists: Vec<Vec<usize>> = Vec::new();
    for &n in paths {
        let first = lists.len();
        lists.extend((0..n).map(|v| [v.wrapping_sub(1), v + 1].into_iter().filter(|&w| w < n).map(|w| first + w).collect()));
    }
    lists.extend(more.iter().map(|l| l.to_vec()));
    let line = |l: &Vec<usize>| format!("{} {}\n", l.len(), l.iter().map(|w| format!("{w} ")).collect::<String>());
    format!("{} {size}\n{}", lists.len(), lists.iter().map(line).collect::<String>())
}

#[test]
fn the_guide_shows_the_example() {
    let o = run(&[]);
    assert!(o.status.success() && o.stderr.is_empty());
    let guide = include_str!("../../../docs/GROUPING.md");
    let indented = |text: &str| text.lines().map(|l| format!("    {l}\n")).collect::<String>();
    assert!(guide.contains(&indented(out(&o))), "docs/GROUPING.md shows what the example prints:\n{}", indented(out(&o)));
    let example = include_str!("../example.txt");
    assert!(guide.contains(&indented(example)), "docs/GROUPING.md shows the example:\n{}", indented(example));
    assert_eq!(out(&of("example", example)), out(&o));
}

#[test]
fn every_rule_with_its_figures() {
    let first = |name: &str, text: String| out(&of(name, &text)).lines().next().unwrap().to_string();
    assert_eq!(first("only", text(8, &[9], &[])), "group 1 joins group 0: only one group named");
    assert_eq!(first("edges", text(8, &[8, 7], &[&[3, 3, 11]])), "group 2 joins group 0: most edges, 2 against 1");
    assert_eq!(first("members", text(8, &[8, 7], &[&[3, 11]])), "group 2 joins group 1: fewer members, 7 against 8");
    assert_eq!(first("id", text(8, &[8, 8], &[&[3, 11]])), "group 2 joins group 0: lower id, 0 against 1");
    // Three are named: the best that lost is the one with two edges; of those with two edges the one with eight members.
    assert_eq!(first("three", text(8, &[8, 8, 7], &[&[3, 3, 3, 11, 11, 19]])), "group 3 joins group 0: most edges, 3 against 2");
    assert_eq!(first("thin", text(8, &[7, 8, 7, 6], &[&[3, 9, 9, 17, 17, 24]])), "group 4 joins group 2: fewer members, 7 against 8");
}

#[test]
fn two_rounds_and_the_groups() {
    let o = of("rounds", &text(16, &[16], &[&[], &[16, 16, 3]]));
    let ids: String = (0..18).map(|v| format!("{v} 0\n")).collect();
    assert_eq!(out(&o), format!("group 2 joins group 1: most edges, 2 against 1\ngroup 1 joins group 0: only one group named\ngroups 1\n{ids}"));
    let o = of("none", "5 2  1 1  2 0 2  2 1 3  2 2 4  1 3");
    assert_eq!(out(&o), "no group joins another\ngroups 3\n0 0\n1 0\n2 1\n3 1\n4 2\n");
}

#[test]
fn refusals_in_words() {
    let refused = |name: &str, text: &str, words: &str| {
        let o = of(name, text);
        let said = String::from_utf8(o.stderr.clone()).unwrap();
        assert!(o.status.code() == Some(1) && o.stdout.is_empty() && said.contains(": refused: ") && said.contains(words), "{name}: {said}");
    };
    refused("malformed", "1 2 zero", "decimal numbers");
    refused("short", "3 2 0 0", "(cause 27)");
    refused("nodes", "257 2", "at most 256 nodes and 2,048 neighbours are taken (cause 1)");
    refused("size", "1 0 0", "group size");
    refused("none", "0 4", "no node");
    refused("outside", "2 4 1 2 0", "a neighbour is not below the number of nodes");
    let o = run(&["no such file"]);
    assert!(o.status.code() == Some(1) && String::from_utf8(o.stderr).unwrap().starts_with("no such file: "));
    let o = run(&["--rules"]);
    assert!(o.status.code() == Some(1) && String::from_utf8(o.stderr).unwrap().starts_with("no option '--rules'\nusage: "));
    let o = run(&["--help"]);
    assert!(o.status.success() && out(&o).starts_with("usage: scripts/joinings [FILE]"));
}
