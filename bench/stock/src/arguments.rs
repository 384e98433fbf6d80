//! The command line.

use std::ffi::OsString;
use std::path::PathBuf;

/// The number of workers if none is given.
const WORKERS: usize = 4;

/// What a command line asks for.
pub struct Arguments {
    /// The image to read.
    pub input: PathBuf,
    /// The image to write.
    pub output: PathBuf,
    /// The number of workers that mark and move the objects.
    pub workers: usize,
    /// Whether runs are timed: the milliseconds of each stage are then printed.
    pub times: bool,
}

impl Arguments {
    /// Returns what these words ask for: two paths, with options anywhere. None if they are wrong.
    pub fn read(mut words: impl Iterator<Item = OsString>) -> Option<Self> {
        let (mut paths, mut workers, mut times) = (Vec::new(), WORKERS, false);
        while let Some(word) = words.next() {
            match word.to_str() {
                Some("--workers") => workers = words.next()?.to_str()?.parse().ok()?,
                Some("--times") => times = true,
                _ => paths.push(PathBuf::from(word)),
            }
        }
        let [input, output] = paths.try_into().ok()?;
        Some(Arguments {
            input,
            output,
            workers,
            times,
        })
    }
}
