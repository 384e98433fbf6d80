//! Writing the compacted image.

use crate::fault::Fault;
use crate::header::{DATA_SIZE_WORD, SPECIAL_WORD};
use crate::image::Image;
use crate::words::Order;
use std::fs::File;
use std::io::{self, Write};
use std::path::Path;

/// The number of words that are encoded at once, and their size in bytes.
const BLOCK_WORDS: usize = 1 << 14;
const BLOCK: usize = 4 * BLOCK_WORDS;

/// Writes an image with these pieces as its data to a file. `special` is the new address of the
/// special objects array.
pub fn write_image(
    path: &Path,
    image: &Image<'_>,
    special: u32,
    pieces: &[Vec<u32>],
) -> Result<(), Fault> {
    let words: usize = pieces.iter().map(Vec::len).sum();
    let mut header = image.header;
    header[DATA_SIZE_WORD] = 4 * words as u32;
    header[SPECIAL_WORD] = special;
    write_words(path, image, &header, pieces).map_err(|_| Fault::WriteFailed)
}

/// Writes the prefix, the header and the pieces.
fn write_words(
    path: &Path,
    image: &Image<'_>,
    header: &[u32],
    pieces: &[Vec<u32>],
) -> io::Result<()> {
    let mut sink = File::create(path)?;
    let order = image.heap.data().order();
    let mut block = [0; BLOCK];
    sink.write_all(image.prefix)?;
    send_words(&mut sink, order, header, &mut block)?;
    for piece in pieces {
        send_words(&mut sink, order, piece, &mut block)?;
    }
    sink.flush()
}

/// Writes words, block by block.
fn send_words(
    sink: &mut File,
    order: Order,
    words: &[u32],
    block: &mut [u8; BLOCK],
) -> io::Result<()> {
    for front in words.chunks(BLOCK_WORDS) {
        for (bytes, word) in block.as_chunks_mut().0.iter_mut().zip(front) {
            *bytes = order.bytes(*word);
        }
        sink.write_all(&block[..4 * front.len()])?;
    }
    Ok(())
}
