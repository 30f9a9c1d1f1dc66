//! A progress bar on a terminal, for runs of more than a second.

use std::time::{Duration, Instant};

use indicatif::{ProgressBar, ProgressDrawTarget, ProgressStyle};

const AFTER: Duration = Duration::from_secs(1);

pub struct Progress {
    bar: ProgressBar,
    start: Instant,
}

impl Progress {
    pub fn new(files: usize) -> Self {
        let bar = ProgressBar::with_draw_target(Some(files as u64), ProgressDrawTarget::hidden());
        let style = ProgressStyle::with_template("{bar:40} {pos} of {len} files, {eta} left");
        bar.set_style(style.expect("a template of the crate's own names"));
        let start = Instant::now();
        Self { bar, start }
    }

    /// One more file is done.
    pub fn step(&self) {
        if self.bar.is_hidden() && self.start.elapsed() > AFTER {
            // draws nothing where standard error is no terminal
            self.bar.set_draw_target(ProgressDrawTarget::stderr());
        }
        self.bar.inc(1);
    }

    /// Writes while the bar is away.
    pub fn aside<Written>(&self, write: impl FnOnce() -> Written) -> Written {
        self.bar.suspend(write)
    }

    pub fn end(&self) {
        self.bar.finish_and_clear();
    }
}
