//! Peak memory, each side in a process of its own.
use crate::table::{Memory, Peak, counted};
use crate::{calls, input};
use cases::answers;
use hybit_matrix::Csr32Matrix;
use std::process::Command;
use yelomawin::{Matrix, Setup};

fn status(name: &str) -> u64 {
    let text = std::fs::read_to_string("/proc/self/status").unwrap_or_default();
    let line = text.lines().find_map(|l| l.strip_prefix(name)).unwrap_or(":0");
    line.trim_start_matches(':').split_whitespace().next().and_then(|w| w.parse().ok()).unwrap_or(0)
}

/// The child: builds the matrix, then one setup, and prints both figures.
pub fn child(side: &str, rows: usize, group: usize, basis: u8, policy: u8) {
    let a = input::frame(rows);
    let (theirs, mine) = calls::options(group, basis, policy);
    if side == "rust" {
        let m = Csr32Matrix::new(a.rows, a.cols, a.row_ptr, a.col_idx, a.values).unwrap();
        let before = start();
        std::hint::black_box(answers::setup(&m, &theirs).unwrap());
        println!("{before} {}", status("VmHWM"));
    } else {
        let m = Matrix { rows: a.rows, cols: a.cols, row_ptr: &a.row_ptr, col_idx: &a.col_idx, values: &a.values };
        let before = start();
        std::hint::black_box(Setup::build(&m, &mine).unwrap());
        println!("{before} {}", status("VmHWM"));
    }
}

/// What the process holds; the peak counts from here, so that building the matrix leaves no trace in it.
fn start() -> u64 {
    std::fs::write("/proc/self/clear_refs", "5").ok();
    status("VmRSS")
}

fn peak(side: &str, args: &[usize]) -> Peak {
    let args = args.iter().map(usize::to_string);
    let run = Command::new(std::env::current_exe().unwrap()).arg("memory").arg(side).args(args).output().unwrap();
    let text = String::from_utf8(run.stdout).unwrap();
    let numbers: Vec<u64> = text.split_whitespace().map(|w| w.parse().unwrap()).collect();
    let [input, peak] = numbers[..] else { panic!("the {side} side: {}", String::from_utf8_lossy(&run.stderr)) };
    Peak { input, peak }
}

pub fn measured(rows: usize, coarse: usize) -> Vec<Memory> {
    let group = input::group_size(rows, input::BLOCK, coarse);
    let mut out = Vec::new();
    for (basis, name) in [(0, "constant"), (1, "smoothed")] {
        let args = [rows, group, basis, 1];
        let m = Memory { what: format!("{name}, factor, {} rows, coarse about {}", counted(rows), counted(coarse)), rust: peak("rust", &args), ours: peak("ours", &args) };
        eprintln!("peak memory, {}: Rust {} KiB, ours {} KiB", m.what, m.rust.peak, m.ours.peak);
        out.push(m);
    }
    out
}
