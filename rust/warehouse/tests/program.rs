//! The program as a user meets it: the sample, the control that mixes, own loads, rows that are not solved, outputs that would destroy
//! something, and what cannot be taken.
use std::ffi::OsStr;
use std::process::{Command, Output};
use std::sync::atomic::{AtomicUsize, Ordering};

fn run(args: &[&str]) -> Output {
    run_os(args.iter().map(OsStr::new))
}

fn run_os<'a>(args: impl Iterator<Item = &'a OsStr>) -> Output {
    Command::new(env!("CARGO_BIN_EXE_warehouse")).current_dir(env!("CARGO_MANIFEST_DIR")).args(args).output().unwrap()
}

fn out(o: &Output) -> String {
    String::from_utf8(o.stdout.clone()).unwrap()
}

fn err(o: &Output) -> String {
    String::from_utf8(o.stderr.clone()).unwrap()
}

/// A file of its own for every call, gone after the test: tests run side by side.
struct Temporary(String);

impl Temporary {
    fn new(name: &str, text: &str) -> Temporary {
        static FILES: AtomicUsize = AtomicUsize::new(0);
        let path = std::env::temp_dir().join(format!("warehouse-{}-{}-{name}", std::process::id(), FILES.fetch_add(1, Ordering::Relaxed)));
        std::fs::write(&path, text).unwrap();
        Temporary(path.to_str().unwrap().into())
    }
}

impl Drop for Temporary {
    fn drop(&mut self) {
        let _ = std::fs::remove_file(&self.0);
    }
}

/// A symmetric matrix from the entries of its lower half, rows and columns from 1.
fn matrix(name: &str, rows: usize, entries: &[(usize, usize, f64)]) -> Temporary {
    let lines: String = entries.iter().map(|(i, j, x)| format!("{i} {j} {x}\n")).collect();
    Temporary::new(name, &format!("%%MatrixMarket matrix coordinate real symmetric\n{rows} {rows} {}\n{lines}", entries.len()))
}

/// A path of nodes with one unknown each.
fn chain(name: &str, nodes: usize) -> Temporary {
    let mut entries: Vec<_> = (1..=nodes).map(|i| (i, i, 4.0)).collect();
    entries.extend((1..nodes).map(|i| (i + 1, i, -1.0)));
    matrix(name, nodes, &entries)
}

const SAMPLE: &str = "sample/three-rows.mtx";

fn unsolved(text: &str) -> bool {
    text.contains("not reached") || text.contains("stopped:") || text.contains("not solved")
}

#[test]
fn a_load_on_one_row_leaves_the_others() {
    for aggregation in ["graph", "strong-graph"] {
        for basis in ["piecewise-constant", "jacobi-smoothed"] {
            for row in ["0", "1", "2"] {
                let o = run(&["--aggregation", aggregation, "--basis", basis, "--row", row]);
                assert!(o.status.success(), "{}", err(&o));
                assert!(out(&o).contains("177 unknowns, 1323 entries, 59 nodes in 3 free-standing rows"), "{}", out(&o));
                let others = ["105", "132", "117"][row.parse::<usize>().unwrap()];
                assert!(out(&o).contains(&format!("figures of the other rows: {others} compared, 0 differ")), "{}", out(&o));
                assert!(!unsolved(&out(&o)), "{}", out(&o));
            }
        }
    }
}

/// All but the times, which differ from run to run.
fn lasting(text: &str) -> String {
    text.lines().filter(|l| !l.starts_with("times: ")).map(|l| format!("{l}\n")).collect()
}

#[test]
fn the_sample_is_the_file() {
    let (sample, file) = (out(&run(&[])), out(&run(&[SAMPLE])));
    assert!(sample.starts_with("the sample (three-rows.mtx): 177 unknowns") && file.starts_with("sample/three-rows.mtx: 177 unknowns"), "{sample}");
    assert_eq!(lasting(sample.split_once('\n').unwrap().1), lasting(file.split_once('\n').unwrap().1));
    let shown: String = lasting(&sample).lines().map(|l| format!("    {l}\n")).collect();
    let guide = include_str!("../../../docs/USING.md").lines().filter(|l| !l.starts_with("    times: "));
    let guide: String = guide.map(|l| format!("{l}\n")).collect();
    assert!(guide.contains(&shown), "docs/USING.md shows what the sample prints:\n{shown}");
}

#[test]
fn the_levels_the_loads_and_the_times_are_told() {
    let text = out(&run(&[]));
    for told in [
        "block size 3 (3 unknowns a node); loads: -1.0 at unknown 1 of every node; new load: -5.0 more at unknown 1 of every node of row 0",
        "0, matrix         177         1323     90.1 %     16.2 KiB   59 nodes, their factors 4.1 KiB",
        "1, coarse          24          146      9.9 %      2.3 KiB   8 groups, factored, scale 2.4098765432098764e5",
        "operator complexity 1469/1323 = 1.110 (non-zeros of both levels over those of the matrix, as PyAMG has it), grid complexity 201/177 = 1.136; the setup holds 7.1 KiB, and needs 90.8 KiB while it is built",
        "times: reading and checking ",
    ] {
        assert!(text.contains(&format!("{told}")), "{told}\n{text}");
    }
    let text = out(&run(&["--basis", "jacobi-smoothed", "--unknown=2", "--add=7"]));
    assert!(text.contains("loads: -1.0 at unknown 2 of every node; new load: 7.0 more at unknown 2 of every node of row 0"), "{text}");
    assert!(text.contains("smoothed transfer: ") && text.contains(" weights, damping factor 0."), "{text}");
}

#[test]
fn options_of_the_solution() {
    for (policy, shown) in [("factor", ", factored,"), ("inverse", ", inverted,")] {
        let o = run(&["--coarse", policy]);
        assert!(o.status.success() && out(&o).contains(shown) && out(&o).contains("105 compared, 0 differ"), "{}", out(&o));
    }
    let iterations = |tolerance: &str| {
        let o = run(&["--tolerance", tolerance]);
        assert!(o.status.success() && !unsolved(&out(&o)), "{}", out(&o));
        let text = out(&o);
        let line = text.lines().find(|l| l.contains("differ;")).unwrap();
        line.split_once(" iterations;").unwrap().0.rsplit_once(' ').unwrap().1.parse::<usize>().unwrap()
    };
    assert!(0 < iterations("0.9") && iterations("0.9") < iterations("1e-4") && iterations("1e-4") < iterations("1e-13"));
}

#[test]
fn a_tolerance_that_rounding_does_not_allow() {
    let o = run(&["--tolerance", "1e-16"]);
    assert!(o.status.code() == Some(1) && err(&o).starts_with("3 of 3 rows not solved: row 0, tolerance not reached (residual "), "{}", err(&o));
    assert!(err(&o).contains(", and rounding lets it fall no further)") && err(&o).contains("only a larger --tolerance can be reached\n"), "{}", err(&o));
    // The true residuals are printed, and the other rows' figures stay.
    assert!(out(&o).contains("105 compared, 0 differ") && out(&o).contains("e-15 and "), "{}", out(&o));
}

#[test]
fn every_preconditioner_is_compared() {
    let o = run(&["--compare"]);
    assert!(o.status.success(), "{}", err(&o));
    let text = out(&o);
    let table: Vec<&str> = text.lines().skip_while(|l| !l.starts_with("  preconditioner ")).collect();
    let names: Vec<&str> = table[1..10].iter().map(|l| l[..38].trim()).collect();
    assert_eq!(names, [
        "none", "Jacobi", "block Jacobi, blocks of 3", "graph, piecewise-constant", "graph, jacobi-smoothed", "strong-graph, piecewise-constant",
        "strong-graph, jacobi-smoothed", "contiguous, piecewise-constant *", "contiguous, jacobi-smoothed *",
    ]);
    for line in &table[1..10] {
        let w: Vec<&str> = line[38..].split_whitespace().collect();
        assert!(w.len() == 4 && w[2].parse::<usize>().unwrap() > 0 && w[3].parse::<f64>().unwrap() <= 1e-9, "{line}");
    }
    // What is refused is told in its line, and the others are compared.
    let apart = matrix("compared", 2100, &(1..=2100).map(|i| (i, i, 1.0)).collect::<Vec<_>>());
    let text = out(&run(&[&apart.0, "--block", "1", "--aggregation", "contiguous", "--group", "8", "--most", "2", "--compare"]));
    let line = |name: &str| text.lines().find(|l| l.starts_with(&format!("  {name} "))).unwrap_or_else(|| panic!("{name}: {text}")).to_string();
    assert!(line("strong-graph, jacobi-smoothed").ends_with(" refused: cause 17"), "{text}");
    assert!(line("Jacobi").split_whitespace().nth(3) == Some("1"), "{text}");
}

#[test]
fn contiguous_grouping_mixes() {
    let o = run(&["--aggregation", "contiguous", "--group", "7", "--most", "300"]);
    assert!(out(&o).contains("105 compared, 105 differ\nunder contiguous grouping a group may span two rows"), "{}", out(&o));
    assert!(o.status.code() == Some(1) && err(&o).starts_with("3 of 3 rows not solved: "), "{}", err(&o));
}

#[test]
fn own_loads_and_figures() {
    let figures = Temporary::new("figures", "");
    let groups = Temporary::new("groups", "");
    let mut printed = Vec::new();
    for head in ["", "%%MatrixMarket matrix array real general\n177 1\n"] {
        let loads = Temporary::new("loads", &format!("{head}{}", "2.5\n".repeat(177)));
        let o = run(&[SAMPLE, "--loads", &loads.0, "--figures", &figures.0, "--groups", &groups.0]);
        assert!(o.status.success(), "{}", err(&o));
        let text = std::fs::read_to_string(&groups.0).unwrap();
        let pairs: std::collections::BTreeSet<_> = text.lines().skip(1).map(|l| l.split_once(' ').unwrap().1).collect();
        // Eight groups, each in one row.
        assert_eq!((text.lines().count(), pairs.len()), (60, 8));
        let text = std::fs::read_to_string(&figures.0).unwrap();
        assert_eq!(text.lines().count(), 178);
        for line in text.lines().skip(1) {
            let w: Vec<&str> = line.split(' ').collect();
            assert_eq!(w[1] == "0", w[2] != w[3], "{line}");
        }
        printed.push((lasting(&out(&o)).replace(&loads.0, "the loads"), text));
    }
    assert_eq!(printed[0], printed[1]);
}

#[test]
fn one_row_has_no_other() {
    let one = matrix("one", 2, &[(1, 1, 4.0), (2, 1, -1.0), (2, 2, 4.0)]);
    let o = run(&[&one.0, "--block", "1"]);
    assert!(o.status.success() && lasting(&out(&o)).ends_with("there is no other row to compare\n"), "{}", out(&o));
    // One is told in the singular.
    assert!(out(&o).contains("2 unknowns, 4 entries, 2 nodes in 1 free-standing row\nblock size 1 (1 unknown a node); "), "{}", out(&o));
    assert!(out(&o).contains("  row 0: 2 nodes in 1 group, of 2 nodes\n"), "{}", out(&o));
    let o = run(&[&one.0, "--block", "1", "--most", "1", "--row", "1"]);
    assert_eq!(err(&o), "--row: expected 0, for one row stands free; found 1\n");
    let alone = matrix("alone", 1, &[(1, 1, 4.0)]);
    let o = run(&[&alone.0, "--block", "1"]);
    assert!(out(&o).contains(": 1 unknown, 1 entry, 1 node in 1 free-standing row\n"), "{}", out(&o));
    assert!(out(&o).contains("  row 0: 1 node in 1 group, of 1 node\n") && out(&o).contains("  row 0: 1 figure compared, "), "{}", out(&o));
}

#[test]
fn rows_that_are_not_solved_are_named() {
    let o = run(&["--most", "1"]);
    let said = err(&o);
    assert!(o.status.code() == Some(1) && said.starts_with("3 of 3 rows not solved: row 0, tolerance not reached (residual "), "{said}");
    assert!(said.contains("; row 1, tolerance not reached (residual ") && said.lines().count() == 1, "{said}");
    // Thirteen single nodes; the last row is a chain that is not positive definite, though its blocks and its coarse matrix are.
    let mut entries: Vec<_> = (1..=17).map(|i| (i, i, 4.0)).collect();
    entries.extend((14..17).map(|i| (i + 1, i, 3.0)));
    let many = matrix("many", 17, &entries);
    let loads = Temporary::new("many-loads", &format!("{}1\n-2\n1.5\n-1\n", "1\n".repeat(13)));
    let o = run(&[&many.0, "--block", "1", "--loads", &loads.0]);
    assert_eq!((o.status.code(), err(&o).trim()), (Some(1), "1 of 14 rows not solved: row 13, stopped: the matrix or the preconditioner is not positive definite there"));
    assert!(out(&o).contains("  row 11: ") && !out(&o).contains("  row 12: "), "{}", out(&o));
    assert!(out(&o).contains("\n  and 2 rows more\nfigures of the other rows: 16 compared, 0 differ\n"), "{}", out(&o));
    let loads = Temporary::new("huge-loads", &format!("1e308\n{}", "1\n".repeat(16)));
    let huge = matrix("huge", 17, &(1..=17).map(|i| (i, i, 0.25)).collect::<Vec<_>>());
    let o = run(&[&huge.0, "--block", "1", "--loads", &loads.0, "--row", "1"]);
    assert_eq!((o.status.code(), err(&o).trim()), (Some(1), "1 of 17 rows not solved: row 0, stopped: a number became too large"));
    assert!(out(&o).contains("figures of the other rows: 16 compared, 0 differ\n"), "{}", out(&o));
}

#[test]
fn tiny_loads_are_solved() {
    let loads = Temporary::new("tiny-loads", &"1e-200\n".repeat(177));
    let o = run(&["--loads", &loads.0, "--add", "1e-200"]);
    assert!(o.status.success() && !unsolved(&out(&o)) && !out(&o).contains(" 0 and"), "{}", out(&o));
    assert!(out(&o).contains("105 compared, 0 differ"), "{}", out(&o));
}

#[test]
fn what_cannot_be_done_is_said() {
    let bad = Temporary::new("bad", "%%MatrixMarket matrix coordinate real symmetric\n2 2 2\n1 1 4\n2 5 1\n");
    let lopsided = Temporary::new("lopsided", "%%MatrixMarket matrix coordinate real general\n2 2 3\n1 1 4\n2 2 4\n1 2 1\n");
    let loose = matrix("loose", 2, &[(1, 1, 4.0), (2, 2, -1.0)]);
    let empty = matrix("empty", 6, &[]);
    let apart = matrix("apart", 2100, &(1..=2100).map(|i| (i, i, 1.0)).collect::<Vec<_>>());
    let linked = chain("linked", 2100);
    // Nodes 3 and 4 are linked with each other alone.
    let free = matrix("free", 4, &[(1, 1, 2.0), (2, 1, -1.0), (2, 2, 2.0), (3, 3, 1.0), (4, 3, -1.0), (4, 4, 1.0)]);
    let hinged = matrix("hinged", 4, &[(1, 1, 2.0), (2, 1, -1.0), (2, 2, 2.0), (3, 3, 1.0), (4, 3, -2.0), (4, 4, 1.0)]);
    let large = Temporary::new("large", &format!("{}1e308\n", "0\n".repeat(176)));
    for (args, message) in [
        (vec![&bad.0[..]], "line 4: expected a row and a column from 1 to 2, found 2 and 5"),
        (vec![&loose.0, "--block", "1"], "refused: the pivot of matrix row 2 is not above 1e-14 times the largest entry of its diagonal block"),
        (vec![&loose.0, "--block", "1"], "(cause 15); matrix row 2 of the file is unknown 0 of node 1\n"),
        (vec![&empty.0], "(cause 15); matrix row 1 of the file is unknown 0 of node 0\n"),
        (vec![&loose.0], "refused: the number of rows must be a multiple of the block size: every node has as many unknowns (cause 12); --block sets the unknowns a node"),
        (vec![&lopsided.0, "--block", "1"], "conjugate gradients need a symmetric matrix, and (1, 2) is 1e0 and (2, 1) is 0e0"),
        (vec![&apart.0], "(cause 17); 700 rows stand free, and with 3 unknowns a node at most 682 fit one file: split it\n"),
        (vec![&apart.0, "--aggregation", "contiguous", "--group", "1"], "(cause 17); --group 2 is enough (coarse dimension 1050), --group 1 is not (2100)\n"),
        (vec![&linked.0, "--group", "1"], "the coarse dimension (groups times block size) would be 2100, above 2,048"),
        (vec![&linked.0, "--group", "1"], "(cause 17); --group 2 is enough (coarse dimension 1050), --group 1 is not (2100)\n"),
        (vec![&linked.0, "--group", "1", "--aggregation", "strong-graph"], "(cause 17); --group 2 is enough (coarse dimension 1050), --group 1 is not (2100)\n"),
        (vec![&free.0, "--block", "1"], "(cause 24); row 1 can move freely: it is not held (no load is needed to move all its nodes alike along unknown 0)\n"),
        (vec![&free.0, "--block", "1", "--aggregation", "strong-graph"], "(cause 24); row 1 can move freely: it is not held"),
        (vec![&free.0, "--block", "1", "--basis", "jacobi-smoothed"], "(cause 24); row 1 can move freely: it is not held"),
        (vec![&hinged.0, "--block", "1", "--group", "2"], "(cause 24); this is unknown 0 of group 1, in row 1: is it held, and everything in it?\n"),
        (vec!["no-such-file.mtx"], "no-such-file.mtx: No such file"),
        (vec![SAMPLE, "--loads", "no-such-file.txt"], "no-such-file.txt: No such file"),
        (vec![SAMPLE, &loose.0], "expected one file, found 'sample/three-rows.mtx' and '"),
        (vec!["--row", "3"], "--row: expected 0 to 2, found 3"),
        // Told before the setup, which refuses this matrix.
        (vec![&loose.0, "--block", "1", "--row", "2"], "--row: expected 0 to 1, found 2"),
        (vec![&loose.0, "--block", "1", "--loads", &bad.0], "line 1: expected '%%MatrixMarket matrix array real general' or one number a line"),
        (vec!["--block", "0"], "--block: expected a count from 1, found '0'"),
        (vec!["--block", "9"], "the block size (unknowns a node) must be 1 to 8 (cause 10); --block sets the unknowns a node"),
        (vec!["--block", "99999999999"], "the block size (unknowns a node) must be 1 to 8 (cause 10)"),
        (vec!["--group", "1048577"], "the group size (nodes a group) must be 1 to 1,048,576 (cause 11); --group sets the nodes a group"),
        (vec!["--unknown", "3"], "--unknown: expected 0 to 2, found 3"),
        (vec!["--add", "nan"], "--add: expected a finite number, found 'nan'"),
        (vec!["--add", "-inf"], "--add: expected a finite number, found '-inf'"),
        (vec!["--loads", &large.0, "--add", "1e308", "--row", "2", "--unknown", "2"], "--add: 1e308 and the load 1e308 of unknown 176 add up to no finite number"),
        (vec!["--tolerance", "0"], "--tolerance: expected a number from 1e-16 to below 1, found '0'"),
        (vec!["--tolerance", "-1e-3"], "--tolerance: expected a number from 1e-16 to below 1, found '-1e-3'"),
        (vec!["--tolerance", "nan"], "--tolerance: expected a number from 1e-16 to below 1, found 'nan'"),
        (vec!["--tolerance", "inf"], "--tolerance: expected a number from 1e-16 to below 1, found 'inf'"),
        (vec!["--most", "0"], "--most: expected a count from 1, found '0'"),
        (vec!["--basis", "x"], "--basis: expected piecewise-constant or jacobi-smoothed, found 'x'"),
        (vec!["--what", "x"], "no option '--what'\nusage: "),
        (vec!["--block=9x"], "--block: expected a count from 1, found '9x'"),
        (vec!["--block="], "--block: expected a count from 1, found ''"),
        (vec!["--compare=yes"], "--compare: expected no value, found 'yes'"),
        (vec!["-", "--loads", "-"], "--loads: standard input is read for the matrix already"),
        (vec!["--figures", "no-such-folder/x"], "no-such-folder/x: cannot be written: No such file"),
        (vec!["--figures", "sample"], "sample: cannot be written: it is a folder"),
        (vec!["--groups", "-", "--figures=-"], "--figures: '-' is the file of --groups too: each needs its own"),
        (vec!["--row"], "--row: expected a value after it"),
    ] {
        let o = run(&args);
        assert_eq!(o.status.code(), Some(1), "{args:?}");
        assert!(err(&o).contains(message), "{args:?}: {}", err(&o));
        assert_eq!(out(&o), "", "{args:?}");
    }
}

#[test]
fn outputs_destroy_nothing() {
    let text = std::fs::read_to_string(concat!(env!("CARGO_MANIFEST_DIR"), "/sample/three-rows.mtx")).unwrap();
    let (m, loads) = (Temporary::new("keep.mtx", &text), Temporary::new("keep-loads", &"1\n".repeat(177)));
    let other = Temporary::new("keep-other", "as it was");
    let folder = std::env::temp_dir();
    // The same file by another path, and by a name that is not there yet.
    let again = format!("{}/./{}", folder.display(), m.0.rsplit('/').next().unwrap());
    let (new, new_again) = (format!("{}/new-{}", folder.display(), std::process::id()), format!("{}/./new-{}", folder.display(), std::process::id()));
    for (args, message) in [
        (vec![&m.0[..], "--figures", &m.0], "is the file that the matrix is read from, and would be lost"),
        (vec![&m.0, "--groups", &again], "is the file that the matrix is read from, and would be lost"),
        (vec![&m.0, "--loads", &loads.0, "--groups", &loads.0], "is the file that --loads is read from, and would be lost"),
        (vec![&m.0, "--groups", &other.0, "--figures", &other.0], "is the file of --groups too: each needs its own"),
        (vec![&m.0, "--groups", &new, "--figures", &new_again], "is the file of --groups too: each needs its own"),
    ] {
        let o = run(&args);
        assert!(o.status.code() == Some(1) && err(&o).contains(message) && out(&o).is_empty(), "{args:?}: {}", err(&o));
    }
    assert_eq!((std::fs::read_to_string(&m.0).unwrap(), std::fs::read_to_string(&other.0).unwrap()), (text, "as it was".into()));
    // A run that ends before a file is whole leaves what stood there, and nothing beside it.
    let o = run(&["--row", "9", "--figures", &other.0, "--groups", &new]);
    assert!(o.status.code() == Some(1) && err(&o).starts_with("--row: "), "{}", err(&o));
    assert_eq!(std::fs::read_to_string(&other.0).unwrap(), "as it was");
    let left = std::fs::read_dir(&folder).unwrap().filter(|f| {
        let name = f.as_ref().unwrap().file_name().into_string().unwrap_or_default();
        name.starts_with(&format!("new-{}", std::process::id())) || name.starts_with(other.0.rsplit('/').next().unwrap()) && name.ends_with(".part")
    });
    assert_eq!(left.count(), 0);
    // Rows that are not solved have their figures written all the same.
    let o = run(&["--most", "1", "--figures", &other.0]);
    assert!(o.status.code() == Some(1) && std::fs::read_to_string(&other.0).unwrap().starts_with("unknown row before after\n0 0 "), "{}", err(&o));
}

#[cfg(unix)]
#[test]
fn links_and_standard_output_are_known() {
    let text = std::fs::read_to_string(concat!(env!("CARGO_MANIFEST_DIR"), "/sample/three-rows.mtx")).unwrap();
    let m = Temporary::new("linked.mtx", &text);
    let (soft, hard) = (Temporary(format!("{}-soft", m.0)), Temporary(format!("{}-hard", m.0)));
    std::os::unix::fs::symlink(&m.0, &soft.0).unwrap();
    std::fs::hard_link(&m.0, &hard.0).unwrap();
    for link in [&soft.0, &hard.0] {
        let o = run(&[&m.0, "--figures", link]);
        assert!(o.status.code() == Some(1) && err(&o).contains("is the file that the matrix is read from"), "{}", err(&o));
    }
    assert_eq!(std::fs::read_to_string(&m.0).unwrap(), text);
    // What a link leads to is replaced, and the link stays.
    assert!(run(&["--figures", &soft.0]).status.success());
    assert!(std::fs::symlink_metadata(&soft.0).unwrap().is_symlink() && std::fs::read_to_string(&m.0).unwrap().starts_with("unknown row"));
    let sent = std::fs::File::create(&m.0).unwrap();
    let o = Command::new(env!("CARGO_BIN_EXE_warehouse")).args(["--figures", &m.0]).stdout(sent).output().unwrap();
    assert!(o.status.code() == Some(1) && err(&o).contains("is where standard output goes; - writes there"), "{}", err(&o));
}

#[test]
fn standard_input_and_output() {
    use std::io::Write;
    let text = std::fs::read(concat!(env!("CARGO_MANIFEST_DIR"), "/sample/three-rows.mtx")).unwrap();
    let piped = std::process::Stdio::piped;
    let mut p = Command::new(env!("CARGO_BIN_EXE_warehouse"));
    let mut p = p.args(["-", "--figures", "-"]).stdin(piped()).stdout(piped()).stderr(piped()).spawn().unwrap();
    p.stdin.take().unwrap().write_all(&text).unwrap();
    let o = p.wait_with_output().unwrap();
    assert!(o.status.success(), "{}", err(&o));
    // The figures are all that standard output has; the report is on standard error.
    assert!(out(&o).starts_with("unknown row before after\n0 0 ") && out(&o).lines().count() == 178, "{}", out(&o));
    assert!(err(&o).contains("standard input: 177 unknowns") && err(&o).contains("105 compared, 0 differ"), "{}", err(&o));
}

#[test]
fn a_block_size_that_does_not_suit_is_warned_of() {
    // Twelve nodes in a path, two unknowns each, run as one and as three.
    let mut entries = Vec::new();
    for i in 1..=24usize {
        let first = (i - 1) / 2 * 2;
        entries.extend((first.saturating_sub(1).max(1)..=i).map(|j| (i, j, if i == j { 9.0 } else { -1.0 })));
    }
    let m = matrix("blocks", 24, &entries);
    for (block, told) in [("2", None), ("1", Some("look like 2 unknowns a node, and --block says 1")), ("3", Some("do not look like 3 unknowns a node"))] {
        let o = run(&[&m.0, "--block", block]);
        assert!(o.status.success(), "{}", err(&o));
        match told {
            None => assert_eq!(err(&o), ""),
            Some(told) => assert!(err(&o).starts_with("warning: the entries ") && err(&o).contains(told), "{block}: {}", err(&o)),
        }
    }
}

#[test]
fn the_version_is_told() {
    let o = run(&["--version"]);
    assert!(o.status.success() && out(&o) == format!("warehouse {}\n", env!("CARGO_PKG_VERSION")), "{}", out(&o));
}

#[cfg(unix)]
#[test]
fn arguments_that_are_no_unicode() {
    use std::os::unix::ffi::OsStrExt;
    let o = run_os([OsStr::from_bytes(b"gr\xF6\xDFe.mtx")].into_iter());
    assert_eq!((o.status.code(), err(&o).trim()), (Some(1), r#"expected an argument in Unicode, found "gr\xF6\xDFe.mtx""#));
}

#[cfg(target_os = "linux")]
#[test]
fn output_that_cannot_be_written() {
    let full = std::fs::OpenOptions::new().write(true).open("/dev/full").unwrap();
    let o = Command::new(env!("CARGO_BIN_EXE_warehouse")).stdout(full).output().unwrap();
    assert!(o.status.code() == Some(1) && err(&o).starts_with("standard output: "), "{}", err(&o));
}

#[test]
fn help_tells_every_option() {
    let o = run(&["--help"]);
    assert!(o.status.success());
    for line in out(&o).lines().filter(|l| l.starts_with("  --") && !l.starts_with("  --help")) {
        let option = line.split_whitespace().next().unwrap();
        // A value that no option takes, so that the option itself is known.
        let o = run(&[&format!("{option}=")]);
        assert!(o.status.code() == Some(1) && !err(&o).contains("no option"), "{option}: {}", err(&o));
    }
    assert_eq!(out(&run(&["-h"])), out(&o));
}
