//! Copies the sources with the numbers in them made recorded ones: `0.5` becomes `f64::of(0.5)`, ` as f64` becomes `.float()` and
//! ` as f32` becomes `.narrow()`. Nothing else is changed; `f64` itself then names the type of src/recorded.rs.
use std::{env, fs, path::Path};

/// The length of the float literal that a text starts with, and of its suffix, if it is one.
fn literal(s: &str) -> Option<(usize, usize)> {
    let digits = |s: &str| s.find(|c: char| !c.is_ascii_digit() && c != '_').unwrap_or(s.len());
    let whole = digits(s);
    let fraction = s[whole..].strip_prefix('.')?;
    let mut n = whole + 1 + digits(fraction);
    if whole == 0 || n == whole + 1 {
        return None;
    }
    if let Some(power) = s[n..].strip_prefix('e') {
        let sign = power.starts_with('-') as usize;
        n += 1 + sign + digits(&power[sign..]);
    }
    Some((n, if s[n..].starts_with("f64") { 3 } else { 0 }))
}

fn recorded(source: &str) -> String {
    let mut out = String::new();
    for line in source.lines() {
        let code = line.find("//").map_or(line, |k| &line[..k]);
        let mut k = 0;
        while k < code.len() {
            let rest = &code[k..];
            let inside = out.ends_with(|c: char| c.is_ascii_alphanumeric() || c == '_' || c == '.');
            if let Some((n, suffix)) = literal(rest).filter(|_| !inside) {
                out += &format!("f64::of({})", &rest[..n]);
                k += n + suffix;
            } else {
                let c = rest.chars().next().unwrap();
                out.push(c);
                k += c.len_utf8();
            }
        }
        out.push('\n');
    }
    // A place that its own right-hand side borrows, in a preconditioner that document 01 leaves out.
    let out = out.replace("lu[target] -= multiplier", "lu[target] = lu[target] - multiplier");
    out.replace(" as f64", ".float()").replace(" as f32", ".narrow()")
}

fn main() {
    println!("cargo:rerun-if-env-changed=HYBIT_SRC");
    let (from, to) = (env::var("HYBIT_SRC").expect("HYBIT_SRC"), env::var("OUT_DIR").unwrap());
    for (source, copy) in [("hybit-core/src/lib.rs", "core.rs"), ("hybit-matrix/src/csr32.rs", "csr32.rs"), ("hybit-precond/src/lib.rs", "precond.rs")] {
        let path = format!("{from}/crates/{source}");
        println!("cargo:rerun-if-changed={path}");
        fs::write(Path::new(&to).join(copy), recorded(&fs::read_to_string(&path).expect(&path))).unwrap();
    }
}
