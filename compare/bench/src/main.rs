//! Times and peak memory of the Rust and of the library on the same input in one run: `bench [quick | all] [--write FOLDER]`.
//! Prints Markdown; with a folder, writes BENCHMARKS.md and benchmarks.svg there. `bench grouping` measures the grouping alone, `bench shapes` setup and apply on matrices of other shapes.
mod calls;
mod input;
mod limits;
mod memory;
mod middle;
mod plot;
mod table;

use table::{Memory, Row};

/// The largest frame of whole nodes, and the largest matrix.
const LARGEST: usize = 1_048_572;

fn quick() -> (Vec<Row>, Vec<Memory>) {
    let mut rows = calls::grouping("grid", input::grid(100), 64);
    rows.extend(calls::grouping("grid", input::grid(173), 64));
    for n in [6_000, 30_000] {
        let a = input::frame(n);
        rows.extend(calls::stages(&a, input::BLOCK));
        let (lists, graph) = middle::neighbours(&a);
        rows.extend(lists);
        rows.extend(middle::stages(&a, 300, graph));
        rows.extend(calls::setups(&a, 300));
    }
    (rows, memory::measured(30_000, 300))
}

fn groupings() -> Vec<Row> {
    let mut rows = calls::grouping("grid", input::grid(173), 64);
    rows.extend(calls::grouping("grid", input::grid(548), 64));
    rows.extend(calls::grouping("grid", input::grid(1024), 64));
    rows.extend(calls::grouping("random graph", input::random_graph(1 << 20, 16), 64));
    rows.extend(calls::grouping("star", input::star(1 << 20), 64));
    rows.extend(calls::grouping("paths that join", input::joining_paths(1 << 20), 64));
    rows
}

fn all() -> (Vec<Row>, Vec<Memory>) {
    let mut rows = groupings();
    for n in [30_000, 300_000, LARGEST] {
        let a = input::frame(n);
        rows.extend(calls::stages(&a, input::BLOCK));
        let (lists, graph) = middle::neighbours(&a);
        rows.extend(lists);
        // The large coarse systems take most of the time, and do not grow with the rows.
        let large = if n == 300_000 { 1_900 } else { 600 };
        for coarse in (600..=large).step_by(1_300) {
            rows.extend(middle::stages(&a, coarse, graph));
            rows.extend(calls::setups(&a, coarse));
        }
    }
    rows.extend(calls::stages(&input::ring(1 << 20), 8).into_iter().map(|r| Row { what: format!("{}, 16 entries a row", r.what), ..r }));
    rows.extend(calls::shapes());
    let mut memory = memory::measured(300_000, 600);
    memory.extend(memory::measured(LARGEST, 600));
    (rows, memory)
}

fn machine() -> String {
    let cpu = std::fs::read_to_string("/proc/cpuinfo").unwrap_or_default();
    let model = cpu.lines().find_map(|l| l.strip_prefix("model name")).map_or("an unknown processor", |l| l.trim_start_matches([' ', '\t', ':']));
    let cores = std::thread::available_parallelism().map_or(1, |n| n.get());
    let told = |name: &str, what: &str| std::env::var(name).unwrap_or_else(|_| what.into());
    format!("{model}, {cores} cores, {}, {}", told("RUSTC_VERSION", "an unknown rustc"), told("RATTLE_VERSION", "an unknown Rattle"))
}

fn main() {
    rayon::ThreadPoolBuilder::new().num_threads(1).build_global().unwrap();
    let args: Vec<String> = std::env::args().skip(1).collect();
    let words: Vec<&str> = args.iter().map(String::as_str).collect();
    let (command, measure, folder): (_, fn() -> _, _) = match words[..] {
        ["memory", side, ref numbers @ ..] => {
            let n: Vec<usize> = numbers.iter().map(|w| w.parse().expect("a number")).collect();
            return memory::child(side, n[0], n[1], n[2] as u8, n[3] as u8);
        }
        ["quick"] => ("quick", quick, None),
        ["quick", "--write", folder] => ("quick", quick, Some(folder)),
        ["grouping"] => ("grouping", || (groupings(), Vec::new()), None),
        ["shapes"] => ("shapes", || (calls::shapes(), Vec::new()), None),
        [] | ["all"] => ("all", all, None),
        ["--write", folder] | ["all", "--write", folder] => ("all", all, Some(folder)),
        _ => {
            eprintln!("usage: bench [quick | all] [--write FOLDER] | grouping | shapes");
            std::process::exit(2);
        }
    };
    let (rows, memory) = measure();
    let text = table::markdown(command, &machine(), &rows, &memory);
    match folder {
        None => print!("{text}"),
        Some(f) => {
            std::fs::write(format!("{f}/BENCHMARKS.md"), text).unwrap();
            std::fs::write(format!("{f}/benchmarks.svg"), plot::svg(&rows)).unwrap();
        }
    }
}
