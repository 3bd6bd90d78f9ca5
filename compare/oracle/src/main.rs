//! What the Rust answers, as text: `oracle examples` runs document 01's examples and says whether each came out as 01 says;
//! `oracle draw FIRST COUNT MOST` writes COUNT random cases from the seed FIRST on, with at most MOST rows or nodes, and their answers;
//! `oracle published FILE` holds the Rust's `sqrt` to a table of published roots, the patterns of a number and of its root in turn.
use cases::{answers, draw, examples, run, text};

fn main() {
    let args: Vec<String> = std::env::args().skip(1).collect();
    match args.iter().map(String::as_str).collect::<Vec<_>>()[..] {
        ["examples"] => {
            let mut wrong = 0;
            for (name, case, expected) in examples::all() {
                let written = text::write(name, &case, &answers::answer(&case));
                print!("{written}");
                for line in expected {
                    if !written.lines().any(|l| line.met(l)) {
                        eprintln!("{name}: expected {line}");
                        wrong += 1;
                    }
                }
            }
            std::process::exit((wrong > 0) as i32);
        }
        ["draw", first, count, most] => {
            let first: u64 = first.parse().expect("a seed");
            let count: u64 = count.parse().expect("a count");
            let most: usize = most.parse().expect("a size");
            for seed in run::seeds(first, count) {
                let case = draw::any(seed, most);
                print!("{}", text::write(&seed.to_string(), &case, &answers::answer(&case)));
            }
        }
        ["published", file] => {
            let table = std::fs::read_to_string(file).expect("the table of published roots");
            let patterns: Vec<u64> = table
                .split(|c: char| !(c.is_ascii_alphanumeric() || c == '_'))
                .filter_map(|word| u64::from_str_radix(&word.strip_prefix("0x")?.replace('_', ""), 16).ok())
                .collect();
            assert!(!patterns.is_empty() && patterns.len() % 2 == 0, "a table of numbers and their roots");
            let mut wrong = 0;
            for pair in patterns.chunks(2) {
                let (x, root) = (f64::from_bits(pair[0]), f64::from_bits(pair[1]));
                let ours = x.sqrt();
                if ours.to_bits() != root.to_bits() && !(ours.is_nan() && root.is_nan()) {
                    eprintln!("{:016X}: published {:016X}, the Rust {:016X}", pair[0], pair[1], ours.to_bits());
                    wrong += 1;
                }
            }
            println!("{} published roots, {wrong} differ from the Rust's", patterns.len() / 2);
            std::process::exit((wrong > 0) as i32);
        }
        _ => {
            eprintln!("usage: oracle examples | oracle draw FIRST COUNT MOST | oracle published FILE");
            std::process::exit(2);
        }
    }
}
