//! How far a report is, on standard error, and only where that is a terminal.

use indicatif::{ProgressBar, ProgressDrawTarget, ProgressStyle};
use std::time::Duration;
use welmocant::Telling;

pub struct Progress {
    bar: ProgressBar,
    fragments: u32,
}

impl Progress {
    /// Nothing is drawn where standard error is no terminal.
    pub fn new(fragments: u32, bytes: u64) -> Self {
        let bar = ProgressBar::with_draw_target(Some(bytes), ProgressDrawTarget::stderr());
        if let Ok(style) = ProgressStyle::with_template("{prefix} [{bar:24}] {bytes} of {total_bytes}, {msg}, {elapsed}") {
            bar.set_style(style);
        }
        if !bar.is_hidden() {
            bar.set_prefix("pass 1");
            bar.set_message("reading the list");
            bar.enable_steady_tick(Duration::from_millis(500));
        }
        Progress { bar, fragments }
    }

    /// So many bytes more were told.
    pub fn told(&mut self, telling: &Telling, bytes: usize) {
        if self.bar.is_hidden() {
            return;
        }
        self.bar.inc(bytes as u64);
        self.bar.set_prefix(format!("pass {}", telling.passes() + 1));
        self.bar.set_message(match telling.placed() {
            all if all == self.fragments as usize => "all fragments placed, this pass is the last".to_string(),
            placed => format!("{placed} of {} fragments placed", self.fragments),
        });
    }

    /// The file is read from its start again.
    pub fn again(&mut self) {
        self.bar.set_position(0);
    }
}

impl Drop for Progress {
    fn drop(&mut self) {
        self.bar.finish_and_clear();
    }
}
