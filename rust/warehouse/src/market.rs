//! Matrices and load vectors from files in Matrix Market format. Every message names the file, the line, and what was expected there.
use crate::csr::Csr;
use crate::progress::Progress;
use std::io::Read;
use yelomawin::{MOST_ENTRIES, MOST_ROWS};

/// A file's text, with its name for the messages.
pub struct File {
    name: String,
    text: String,
}

/// The numbers of one line.
struct Line<'a> {
    file: &'a File,
    number: usize,
    words: std::str::SplitWhitespace<'a>,
}

impl Line<'_> {
    fn bad<T>(&self, what: impl std::fmt::Display) -> Result<T, String> {
        Err(format!("{}, line {}: {what}", self.file.name, self.number))
    }

    fn next<T>(&mut self, what: &str, read: impl Fn(&str) -> Option<T>) -> Result<T, String> {
        match self.words.next() {
            None => self.bad(format_args!("expected {what}, and the line ends")),
            Some(word) => read(word).map_or_else(|| self.bad(format_args!("expected {what}, found '{word}'")), Ok),
        }
    }

    fn count(&mut self, what: &str) -> Result<usize, String> {
        self.next(what, |w| w.parse().ok())
    }

    fn value(&mut self, what: &str) -> Result<f64, String> {
        // Fortran writes exponents with a D.
        let read = |w: &str| w.parse().ok().or_else(|| w.replace(['d', 'D'], "e").parse().ok());
        self.next(what, |w| read(w).filter(|x: &f64| x.is_finite()))
    }

    fn end(&mut self) -> Result<(), String> {
        match self.words.next() {
            None => Ok(()),
            Some(word) => self.bad(format_args!("expected the end of the line, found '{word}'")),
        }
    }
}

impl File {
    /// The file of a name; - is standard input.
    pub fn read(name: &str) -> Result<File, String> {
        let (name, bytes) = match name {
            "-" => {
                let mut bytes = Vec::new();
                ("standard input", std::io::stdin().read_to_end(&mut bytes).map(|_| bytes))
            }
            _ => (name, std::fs::read(name)),
        };
        bytes.map(|bytes| File::of(name, bytes)).map_err(|e| format!("{name}: {e}"))
    }

    /// A comment may be in another encoding than UTF-8, and a byte-order mark may stand first.
    pub fn of(name: &str, mut bytes: Vec<u8>) -> File {
        if bytes.starts_with("\u{feff}".as_bytes()) {
            bytes.drain(..3);
        }
        let text = String::from_utf8(bytes).unwrap_or_else(|e| String::from_utf8_lossy(e.as_bytes()).into_owned());
        File { name: name.into(), text }
    }

    /// The lines that hold something besides a comment, in order.
    fn lines(&self) -> impl Iterator<Item = Line<'_>> {
        let held = |l: &&str| !l.trim().is_empty() && !l.trim_start().starts_with('%');
        let lines = self.text.lines().enumerate().filter(move |(_, l)| held(l));
        lines.map(|(k, l)| Line { file: self, number: k + 1, words: l.split_whitespace() })
    }

    fn first_line(&self) -> Vec<String> {
        self.text.lines().next().unwrap_or("").split_whitespace().map(str::to_lowercase).collect()
    }

    /// Whether the first line promises a symmetric matrix; what is not taken is refused in words.
    fn symmetric(&self) -> Result<bool, String> {
        let words = self.first_line();
        let words: Vec<&str> = words.iter().map(String::as_str).collect();
        let expected = "expected '%%MatrixMarket matrix coordinate real symmetric' (or integer, or general)";
        let why = match words[..] {
            ["%%matrixmarket", "matrix", "coordinate", "real" | "integer", "symmetric"] => return Ok(true),
            ["%%matrixmarket", "matrix", "coordinate", "real" | "integer", "general"] => return Ok(false),
            ["%%matrixmarket", "matrix", "coordinate", "complex", ..] => "complex values are not taken",
            ["%%matrixmarket", "matrix", "coordinate", "pattern", ..] => "a pattern has no values",
            ["%%matrixmarket", "matrix", "coordinate", _, s @ ("skew-symmetric" | "hermitian")] => {
                return Err(format!("{}, line 1: a {s} matrix is not taken; {expected}", self.name));
            }
            ["%%matrixmarket", "matrix", "array", ..] => "a dense matrix (array) is not taken",
            ["%%matrixmarket", ..] => "this kind of matrix is not known",
            _ => "this is no Matrix Market file",
        };
        Err(format!("{}, line 1: {why}; {expected}", self.name))
    }

    /// A square matrix in coordinate format, real or integer, general or symmetric; a symmetric one stores its lower half.
    pub fn matrix(&self, progress: &Progress) -> Result<Csr, String> {
        self.matrix_of(MOST_ENTRIES, progress)
    }

    /// The same with at most so many entries, mirror images counted.
    fn matrix_of(&self, most: usize, progress: &Progress) -> Result<Csr, String> {
        let symmetric = self.symmetric()?;
        let mut lines = self.lines();
        let mut sizes = lines.next().ok_or_else(|| format!("{}: expected a line with rows, columns and entries; the file ends", self.name))?;
        let rows = sizes.count("a number of rows")?;
        let cols = sizes.count("a number of columns")?;
        let count = sizes.count("a number of entries")?;
        sizes.end()?;
        if rows != cols {
            return sizes.bad(format_args!("expected a square matrix, found {rows} rows and {cols} columns"));
        }
        if rows == 0 {
            return sizes.bad("expected at least one row, found 0");
        }
        if rows > MOST_ROWS || count > most {
            return sizes.bad(format_args!("expected at most {MOST_ROWS} rows and {most} entries, found {rows} and {count}"));
        }
        // A count may be wrong, but no line of an entry is shorter than six bytes.
        let mut entries = Vec::with_capacity(count.min(self.text.len() / 6) * if symmetric { 2 } else { 1 });
        let mut seen = 0;
        for mut line in lines {
            let (i, j) = (line.count("a row")?, line.count("a column")?);
            let x = line.value("a finite value")?;
            line.end()?;
            if !(1..=rows).contains(&i) || !(1..=cols).contains(&j) {
                return line.bad(format_args!("expected a row and a column from 1 to {rows}, found {i} and {j}"));
            }
            if symmetric && i < j {
                return line.bad(format_args!("expected an entry of the lower half (row {i}, column {j} lies above the diagonal): a symmetric file stores one half"));
            }
            seen += 1;
            if seen > count {
                return line.bad(format_args!("expected {count} entries, as the line with the sizes says, and found one more"));
            }
            entries.push((i as u32 - 1, j as u32 - 1, x));
            if symmetric && i != j {
                entries.push((j as u32 - 1, i as u32 - 1, x));
            }
            if entries.len() > most {
                return line.bad(format_args!("expected at most {most} entries, each off the diagonal of a symmetric file counted twice, and found more"));
            }
            progress.at(|| format!("reading {}: {seen} of {count} entries", self.name));
        }
        if seen != count {
            return Err(format!("{}: expected {count} entries, as the line with the sizes says, found {seen}", self.name));
        }
        progress.stage(&format!("sorting the {} entries of {}", entries.len(), self.name));
        Ok(Csr::new(rows, entries))
    }

    /// A load vector: one number a line, or Matrix Market's array format with one column.
    pub fn vector(&self, rows: usize) -> Result<Vec<f64>, String> {
        let head = self.first_line();
        let mut lines = self.lines().peekable();
        if head.first().is_some_and(|w| w == "%%matrixmarket") {
            if head.get(1..).is_none_or(|w| w.len() != 4 || w[0] != "matrix" || w[1] != "array" || !["real", "integer"].contains(&&w[2][..]) || w[3] != "general") {
                return Err(format!("{}, line 1: expected '%%MatrixMarket matrix array real general' or one number a line", self.name));
            }
            let mut sizes = lines.next().ok_or_else(|| format!("{}: expected a line with rows and columns; the file ends", self.name))?;
            let found = (sizes.count("a number of rows")?, sizes.count("a number of columns")?);
            sizes.end()?;
            if found != (rows, 1) {
                return sizes.bad(format_args!("expected {rows} rows and 1 column, found {} and {}", found.0, found.1));
            }
        }
        let mut out = Vec::with_capacity(rows);
        for mut line in lines {
            out.push(line.value("a finite number")?);
            line.end()?;
            if out.len() > rows {
                return line.bad(format_args!("expected {rows} numbers, one an unknown, and found one more"));
            }
        }
        if out.len() != rows {
            return Err(format!("{}: expected {rows} numbers, one an unknown, found {}", self.name, out.len()));
        }
        Ok(out)
    }
}

#[cfg(test)]
mod tests {
    use super::*;

    fn file(bytes: impl AsRef<[u8]>) -> File {
        File::of("f", bytes.as_ref().to_vec())
    }

    fn matrix(bytes: impl AsRef<[u8]>) -> Result<Csr, String> {
        file(bytes).matrix(&Progress::silent())
    }

    const REAL: &str = "%%MatrixMarket matrix coordinate real symmetric\n";
    const WHOLE: &str = "%%MatrixMarket matrix coordinate integer general\n";

    #[test]
    fn a_symmetric_file_stores_one_half() {
        let a = matrix(format!("{REAL}% a comment\n\n3 3 4\n2 1 -1.5\n1 1 2\n3 3 4e0\n2 2 1D1\n")).unwrap();
        assert_eq!((a.rows, a.row_ptr, a.col_idx), (3, vec![0, 2, 4, 5], vec![0, 1, 0, 1, 2]));
        assert_eq!(a.values, [2.0, -1.5, -1.5, 10.0, 4.0]);
    }

    #[test]
    fn a_general_file_stores_everything() {
        let a = matrix(format!("{WHOLE}2 2 3\n2 2 3\n1 1 2\n1 2 1\n")).unwrap();
        assert_eq!((a.row_ptr.clone(), a.col_idx.clone(), a.values.clone()), (vec![0, 2, 3], vec![0, 1, 1], vec![2.0, 1.0, 3.0]));
    }

    #[test]
    fn line_ends_marks_and_comments_of_other_systems() {
        let plain = format!("{REAL}% a comment\n2 2 2\n1 1 4\n2 2 5\n");
        for text in [
            plain.replace('\n', "\r\n").into_bytes(),
            plain.trim_end().into(),
            format!("\u{feff}{plain}").into(),
            [REAL.as_bytes(), b"% gr\xF6\xDFe\n2 2 2\n1 1 4\n2 2 5\n"].concat(),
        ] {
            let a = matrix(&text).unwrap();
            assert_eq!((a.row_ptr, a.col_idx, a.values), (vec![0, 1, 2], vec![0, 1], vec![4.0, 5.0]), "{text:?}");
        }
        assert_eq!(file("\u{feff}1\r\n2").vector(2), Ok(vec![1.0, 2.0]));
        let said = matrix([REAL.as_bytes(), b"1 1 1\n1 1 \xF6\n"].concat()).unwrap_err();
        assert_eq!(said, "f, line 3: expected a finite value, found '\u{fffd}'");
    }

    #[test]
    fn duplicates_stay_and_no_entry_may_be_stored() {
        let a = matrix(format!("{REAL}2 2 4\n2 1 1\n1 1 4\n2 1 2\n1 1 8\n")).unwrap();
        assert_eq!((a.row_ptr, a.col_idx, a.values), (vec![0, 4, 6], vec![0, 0, 1, 1, 0, 0], vec![4.0, 8.0, 1.0, 2.0, 1.0, 2.0]));
        assert_eq!(matrix(format!("{REAL}3 3 0\n")).unwrap().row_ptr, [0; 4]);
    }

    #[test]
    fn mirror_images_count() {
        let read = |head: &str, most| file(format!("{head}3 3 3\n1 1 1\n2 1 1\n3 1 1\n")).matrix_of(most, &Progress::silent());
        assert_eq!(read(REAL, 5).unwrap().values.len(), 5);
        assert_eq!(read(REAL, 4).unwrap_err(), "f, line 5: expected at most 4 entries, each off the diagonal of a symmetric file counted twice, and found more");
        assert_eq!(read(WHOLE, 3).unwrap().values.len(), 3);
        assert_eq!(read(WHOLE, 2).unwrap_err(), "f, line 2: expected at most 1048576 rows and 2 entries, found 3 and 3");
    }

    #[test]
    fn bad_files_are_told_by_line_and_what_was_expected() {
        let head = |kind: &str| format!("%%MatrixMarket matrix {kind}\n1 1 1\n1 1 1\n");
        for (text, message) in [
            ("".into(), "f, line 1: this is no Matrix Market file; expected '%%MatrixMarket matrix coordinate real symmetric' (or integer, or general)"),
            ("2 2 2\n1 1 1\n2 2 1\n".into(), "f, line 1: this is no Matrix Market file"),
            (head("coordinate complex general"), "f, line 1: complex values are not taken"),
            (head("coordinate pattern symmetric"), "f, line 1: a pattern has no values"),
            (head("coordinate real skew-symmetric"), "f, line 1: a skew-symmetric matrix is not taken"),
            (head("coordinate complex hermitian"), "f, line 1: complex values are not taken"),
            (head("array real general"), "f, line 1: a dense matrix (array) is not taken"),
            (head("coordinate real"), "f, line 1: this kind of matrix is not known"),
            (REAL.into(), "f: expected a line with rows, columns and entries; the file ends"),
            (format!("{REAL}2 2\n"), "f, line 2: expected a number of entries, and the line ends"),
            (format!("{REAL}2 x 1\n"), "f, line 2: expected a number of columns, found 'x'"),
            (format!("{REAL}2 2 1 9\n"), "f, line 2: expected the end of the line, found '9'"),
            (format!("{REAL}2 -2 1\n"), "f, line 2: expected a number of columns, found '-2'"),
            (format!("{REAL}3 2 1\n1 1 1\n"), "f, line 2: expected a square matrix, found 3 rows and 2 columns"),
            (format!("{REAL}2000000 2000000 1\n1 1 1\n"), "f, line 2: expected at most 1048576 rows and 16777216 entries, found 2000000 and 1"),
            (format!("{REAL}1 1 99999999999999999\n1 1 1\n"), "f, line 2: expected at most"),
            (format!("{REAL}1 1 999999999999999999999999\n1 1 1\n"), "f, line 2: expected a number of entries, found '999999999999999999999999'"),
            (format!("{REAL}2 2 2\n%\n1 1 1\n3 1 1\n"), "f, line 5: expected a row and a column from 1 to 2, found 3 and 1"),
            (format!("{REAL}2 2 2\n1 1 1\n0 1 1\n"), "f, line 4: expected a row and a column from 1 to 2, found 0 and 1"),
            (format!("{REAL}2 2 2\n1 1 1\n1 2 1\n"), "f, line 4: expected an entry of the lower half (row 1, column 2 lies above the diagonal)"),
            (format!("{REAL}2 2 2\n1 1 1\n2 2\n"), "f, line 4: expected a finite value, and the line ends"),
            (format!("{REAL}2 2 2\n1 1 one\n"), "f, line 3: expected a finite value, found 'one'"),
            (format!("{REAL}2 2 2\n1 1 nan\n"), "f, line 3: expected a finite value, found 'nan'"),
            (format!("{REAL}2 2 2\n1 1 -inf\n"), "f, line 3: expected a finite value, found '-inf'"),
            (format!("{REAL}2 2 2\n1 1 1e400\n"), "f, line 3: expected a finite value, found '1e400'"),
            (format!("{REAL}0 0 0\n"), "f, line 2: expected at least one row, found 0"),
            (format!("{REAL}2 2 2\n1 1 1 0\n"), "f, line 3: expected the end of the line, found '0'"),
            (format!("{REAL}2 2 2\n1 1 1\n"), "f: expected 2 entries, as the line with the sizes says, found 1"),
            (format!("{REAL}2 2 1\n1 1 1\n2 2 1\n"), "f, line 4: expected 1 entries, as the line with the sizes says, and found one more"),
        ] {
            let said = matrix(&text).unwrap_err();
            assert!(said.starts_with(message), "{said}\n{message}");
        }
    }

    #[test]
    fn load_files() {
        assert_eq!(file("% loads\n1\n-2.5\n\n3e2\n").vector(3), Ok(vec![1.0, -2.5, 300.0]));
        assert_eq!(file("%%MatrixMarket matrix array real general\n2 1\n1\n2\n").vector(2), Ok(vec![1.0, 2.0]));
        for (text, message) in [
            ("1\n2\n", "f: expected 3 numbers, one an unknown, found 2"),
            ("1\n2\n3\n4\n", "f, line 4: expected 3 numbers, one an unknown, and found one more"),
            ("1\ntwo\n", "f, line 2: expected a finite number, found 'two'"),
            ("1 2 3\n", "f, line 1: expected the end of the line, found '2'"),
            ("%%MatrixMarket matrix coordinate real general\n", "f, line 1: expected '%%MatrixMarket matrix array real general'"),
            ("%%MatrixMarket matrix array real general\n3 2\n", "f, line 2: expected 3 rows and 1 column, found 3 and 2"),
            ("%%MatrixMarket matrix array real general\n3 1 junk\n1\n2\n3\n", "f, line 2: expected the end of the line, found 'junk'"),
            ("1\ninf\n", "f, line 2: expected a finite number, found 'inf'"),
        ] {
            let said = file(text).vector(3).unwrap_err();
            assert!(said.starts_with(message), "{said}\n{message}");
        }
    }
}
