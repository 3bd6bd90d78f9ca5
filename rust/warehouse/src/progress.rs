//! What a long run is doing: a line a second on standard error.
use std::cell::Cell;
use std::sync::{Arc, Mutex};
use std::time::{Duration, Instant};

pub struct Progress {
    text: Arc<Mutex<String>>,
    last: Cell<Instant>,
}

impl Progress {
    /// Says nothing.
    pub fn silent() -> Progress {
        Progress { text: Arc::default(), last: Cell::new(Instant::now()) }
    }

    pub fn every_second() -> Progress {
        let progress = Progress::silent();
        let (text, start) = (progress.text.clone(), Instant::now());
        // The thread ends with the program.
        std::thread::spawn(move || {
            loop {
                std::thread::sleep(Duration::from_secs(1));
                let now = text.lock().unwrap().clone();
                if !now.is_empty() {
                    eprintln!("  {} s: {now}", start.elapsed().as_secs());
                }
            }
        });
        progress
    }

    /// A new stage; no text ends the lines.
    pub fn stage(&self, text: &str) {
        *self.text.lock().unwrap() = text.into();
    }

    /// How far a stage is; looked at ten times a second.
    pub fn at(&self, text: impl FnOnce() -> String) {
        if self.last.get().elapsed() > Duration::from_millis(100) {
            self.stage(&text());
            self.last.set(Instant::now());
        }
    }
}
