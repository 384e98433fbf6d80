//! Reading the input.

use crate::fault::Fault;
use std::fs::File;
use std::io::{self, Read};
use std::path::Path;

/// The number of bytes that one read asks for.
const PIECE: usize = 1 << 16;

/// The least number of bytes by which room grows.
const LEAST_ROOM: usize = 1 << 20;

/// Returns all bytes of a file.
pub fn read_file(path: &Path) -> Result<Vec<u8>, Fault> {
    File::open(path)
        .and_then(read_all)
        .map_err(|_| Fault::ReadFailed)
}

/// Returns the bytes up to the first read that returns 0.
fn read_all(mut source: File) -> io::Result<Vec<u8>> {
    let mut file = Vec::new();
    let mut piece = [0; PIECE];
    loop {
        let count = source.read(&mut piece)?;
        if count == 0 {
            return Ok(file);
        }
        append(&mut file, &piece[..count]);
    }
}

/// Appends bytes to a file. Room grows by a quarter of what is there, so that the memory taken
/// stays close to what is used.
fn append(file: &mut Vec<u8>, bytes: &[u8]) {
    if file.capacity() - file.len() < bytes.len() {
        file.reserve_exact((file.len() / 4).max(LEAST_ROOM));
    }
    file.extend_from_slice(bytes);
}
