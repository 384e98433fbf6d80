//! The index of a number in an ascending list: a table with one bit per number, and ranks.

/// The number of bits of a block.
const BLOCK_SIZE: usize = 32;

/// A block: 32 adjacent numbers.
#[derive(Clone, Copy)]
struct Block {
    /// Bit `k` is set if number `k` of the block is a member of the table.
    members: u32,
    /// The number of members below the block.
    below: u32,
}

/// An ascending list of numbers, as a block for each 32 numbers up to the greatest one.
#[derive(Default)]
pub struct Ranks {
    blocks: Vec<Block>,
}

impl Ranks {
    /// Adds a number to a table of `count` smaller ones.
    pub fn add(&mut self, count: u32, number: usize) {
        let block = number / BLOCK_SIZE;
        if self.blocks.len() <= block {
            let empty = Block {
                members: 0,
                below: count,
            };
            self.blocks.resize(block + 1, empty);
        }
        self.blocks[block].members |= 1 << (number % BLOCK_SIZE);
    }

    /// Returns the index of a number among the members, if it is one. Takes constant time.
    pub fn index(&self, number: usize) -> Option<u32> {
        let block = self.blocks.get(number / BLOCK_SIZE)?;
        let bit = 1 << (number % BLOCK_SIZE);
        if block.members & bit == 0 {
            return None;
        }
        Some(block.below + (block.members & (bit - 1)).count_ones())
    }
}
