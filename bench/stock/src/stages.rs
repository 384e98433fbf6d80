//! How long each stage of a run takes.

use std::time::{Duration, Instant};

/// The stages of a run that have ended, each with its time.
pub struct Stages {
    began: Instant,
    ended: Vec<(&'static str, Duration)>,
}

impl Stages {
    /// Begins the first stage.
    pub fn start() -> Self {
        Stages {
            began: Instant::now(),
            ended: Vec::new(),
        }
    }

    /// Ends the stage with this name, and begins the next one.
    pub fn end(&mut self, name: &'static str) {
        self.ended.push((name, self.began.elapsed()));
        self.began = Instant::now();
    }

    /// Returns a line of the names.
    pub fn names(&self) -> String {
        let names = self.ended.iter();
        names.map(|(name, _)| format!("{name:>9}")).collect()
    }

    /// Returns a line of the milliseconds.
    pub fn milliseconds(&self) -> String {
        let times = self.ended.iter().map(|(_, time)| time.as_secs_f64());
        times
            .map(|time| format!("{:>9.1}", 1000.0 * time))
            .collect()
    }
}
