//! docs/USING.md shows the crate's first example and that of a log, which are run with its documentation; docs/SPECIFICATION.md has every cause.

/// The example of a documentation comment that contains some text, without its hidden lines, as the guide indents it.
fn example(source: &str, mark: &str, with: &str) -> String {
    let fence = format!("{mark} ```");
    let lines: Vec<&str> = source.lines().collect();
    let mut examples = lines.split(|l| *l == fence).skip(1).step_by(2);
    let found = examples.find(|e| e.iter().any(|l| l.contains(with))).expect("an example");
    let shown = found.iter().filter(|l| !l.starts_with(&format!("{mark} #"))).map(|l| match l.strip_prefix(mark) {
        Some("") | None => "\n".into(),
        Some(code) => format!("   {code}\n"),
    });
    shown.collect()
}

#[test]
fn the_guide_shows_the_examples() {
    let guide = include_str!("../../../docs/USING.md");
    let first = example(include_str!("../src/lib.rs"), "//!", "Setup::build");
    assert!(guide.contains(&first), "{first}");
    let log = example(include_str!("../src/grouping.rs"), "///", "group_log");
    assert!(guide.contains(&log), "{log}");
}

#[test]
fn the_specification_has_every_cause() {
    let page = include_str!("../../../docs/SPECIFICATION.md");
    for n in (1..).take_while(|&n| yelomawin::Refusal::from_number(n, &[]).is_some()) {
        assert_eq!(page.lines().filter(|l| l.starts_with(&format!("| {n} | "))).count(), 1, "cause {n}");
    }
}
