//! Files that are written: opened before the work begins, and in place only once they are whole.
use crate::job::Job;
use std::fs;
use std::io::{self, BufWriter, Write};
use std::path::{Path, PathBuf};

/// An open output. What stood under its name stays there until `done`.
pub struct Output {
    name: String,
    writer: BufWriter<Box<dyn Write>>,
    /// Written beside its place first: there, and its place.
    moves: Option<(PathBuf, PathBuf)>,
}

/// The outputs that a job asks for.
pub struct Outputs {
    pub groups: Option<Output>,
    pub figures: Option<Output>,
}

const STDOUT: [&str; 4] = ["-", "/dev/stdout", "/dev/fd/1", "/proc/self/fd/1"];

/// Whether an output goes to standard output.
pub fn is_stdout(name: &str) -> bool {
    STDOUT.contains(&name)
}

impl Outputs {
    /// Refuses an output that is an input or another output, then opens them.
    pub fn open(job: &Job) -> Result<Outputs, String> {
        let inputs = [("the matrix", &job.file), ("--loads", &job.loads)];
        let outputs = [("--groups", &job.groups), ("--figures", &job.figures)];
        for (k, (option, output)) in outputs.iter().enumerate() {
            let Some(output) = output else { continue };
            for (what, input) in &inputs {
                if input.as_ref().is_some_and(|f| f != "-" && same(f, output)) {
                    return Err(format!("{option}: '{output}' is the file that {what} is read from, and would be lost"));
                }
            }
            if is_standard_output(output) {
                return Err(format!("{option}: '{output}' is where standard output goes; - writes there"));
            }
            for (other, earlier) in &outputs[..k] {
                if earlier.as_ref().is_some_and(|f| same(f, output)) {
                    return Err(format!("{option}: '{output}' is the file of {other} too: each needs its own"));
                }
            }
        }
        let open = |name: &Option<String>| name.as_ref().map(|n| Output::open(n)).transpose();
        Ok(Outputs { groups: open(&job.groups)?, figures: open(&job.figures)? })
    }
}

impl Output {
    fn open(name: &str) -> Result<Output, String> {
        let said = |e: io::Error| format!("{name}: cannot be written: {e}");
        let new = |writer: Box<dyn Write>, moves| Output { name: name.into(), writer: BufWriter::new(writer), moves };
        if is_stdout(name) {
            return Ok(new(Box::new(io::stdout()), None));
        }
        let place = match fs::metadata(name) {
            Ok(m) if m.is_dir() => return Err(format!("{name}: cannot be written: it is a folder")),
            // A device or a pipe cannot be replaced.
            Ok(m) if !m.is_file() => return Ok(new(Box::new(fs::OpenOptions::new().write(true).open(name).map_err(said)?), None)),
            Ok(_) => {
                // A file that may not be written is not replaced either; of a link what it leads to is.
                fs::OpenOptions::new().write(true).open(name).map_err(said)?;
                fs::canonicalize(name).map_err(said)?
            }
            Err(_) => PathBuf::from(name),
        };
        let mut beside = place.clone().into_os_string();
        beside.push(format!(".{}.part", std::process::id()));
        let file = fs::OpenOptions::new().write(true).create_new(true).open(&beside).map_err(said)?;
        Ok(new(Box::new(file), Some((beside.into(), place))))
    }

    /// Writes it whole and puts it in its place.
    pub fn written(mut self, text: impl FnOnce(&mut dyn Write) -> io::Result<()>) -> Result<(), String> {
        let write = || {
            text(&mut self.writer)?;
            self.writer.flush()?;
            if let Some((beside, place)) = &self.moves {
                if let Ok(m) = fs::metadata(place) {
                    fs::set_permissions(beside, m.permissions())?;
                }
                fs::rename(beside, place)?;
            }
            Ok(())
        };
        write().map_err(|e: io::Error| format!("{}: {e}", self.name))?;
        self.moves = None;
        Ok(())
    }
}

impl Drop for Output {
    fn drop(&mut self) {
        if let Some((beside, _)) = &self.moves {
            let _ = fs::remove_file(beside);
        }
    }
}

/// Whether two names mean one file, by any path, link or second name. Devices may be named twice.
fn same(a: &str, b: &str) -> bool {
    if is_stdout(a) || is_stdout(b) {
        return is_stdout(a) && is_stdout(b);
    }
    match (fs::metadata(a), fs::metadata(b)) {
        (Ok(m), Ok(n)) => m.is_file() && (one_file(&m, &n) || full(a) == full(b)),
        (Err(_), Err(_)) => full(a) == full(b),
        _ => false,
    }
}

#[cfg(unix)]
fn one_file(m: &fs::Metadata, n: &fs::Metadata) -> bool {
    use std::os::unix::fs::MetadataExt;
    (m.dev(), m.ino()) == (n.dev(), n.ino())
}

#[cfg(not(unix))]
fn one_file(_: &fs::Metadata, _: &fs::Metadata) -> bool {
    false
}

/// Whether a named file is the one that standard output was sent to.
#[cfg(unix)]
fn is_standard_output(name: &str) -> bool {
    use std::os::fd::AsFd;
    let out = io::stdout().as_fd().try_clone_to_owned().and_then(|fd| fs::File::from(fd).metadata());
    !is_stdout(name) && matches!((fs::metadata(name), out), (Ok(m), Ok(n)) if m.is_file() && one_file(&m, &n))
}

#[cfg(not(unix))]
fn is_standard_output(_: &str) -> bool {
    false
}

/// The whole path, of a file that is not there yet too.
fn full(name: &str) -> Option<PathBuf> {
    let path = Path::new(name);
    fs::canonicalize(path).ok().or_else(|| {
        let folder = path.parent().filter(|p| !p.as_os_str().is_empty()).unwrap_or(Path::new("."));
        Some(fs::canonicalize(folder).ok()?.join(path.file_name()?))
    })
}
