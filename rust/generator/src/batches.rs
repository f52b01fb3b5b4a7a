//! Several tables for one call: tables of the generator end to end, with their lengths or wrong ones.

use crate::make::make;
use crate::rng::Rng;

/// Tables end to end, a list of lengths, and how long a buffer to lend.
#[derive(Clone, Debug, PartialEq, Eq)]
pub struct Batch {
    pub tables: Vec<u8>,
    pub lengths: Vec<usize>,
    pub buffer_length: usize,
}

/// How many tables: mostly few, since each is walked; now and then none, the most, or too many.
const COUNTS: [usize; 12] = [1, 1, 2, 2, 2, 3, 3, 4, 5, 0, 16, 17];

/// The batch of a seed.
pub fn make_batch(seed: u64) -> Batch {
    let mut rng = Rng::new(seed.rotate_left(32));
    let count = rng.pick(&COUNTS);
    let mut tables = Vec::new();
    let mut lengths = Vec::new();
    for _ in 0..count {
        let table = if rng.once_in(8) { Vec::new() } else { make(rng.draw() % 100_000).text };
        lengths.push(table.len());
        tables.extend(table);
    }
    if rng.once_in(3) {
        spoil(&mut lengths, &mut rng);
    }
    let most = 230 * count.max(1);
    Batch { tables, lengths, buffer_length: rng.below(most) }
}

/// Lengths that are moved, one off, wrapped, or one more or less; some still add up.
fn spoil(lengths: &mut Vec<usize>, rng: &mut Rng) {
    if lengths.is_empty() {
        lengths.push(0);
        return;
    }
    let i = rng.below(lengths.len());
    let j = rng.below(lengths.len());
    match rng.below(6) {
        0 => lengths[i] += 1,
        1 => lengths[i] = lengths[i].wrapping_sub(1),
        2 => {
            let moved = lengths[i] / 2;
            lengths[i] -= moved;
            lengths[j] += moved;
        }
        3 => {
            lengths[i] += 1;
            lengths.push(usize::MAX);
        }
        4 => lengths.push(0),
        _ => {
            lengths.swap_remove(i);
        }
    }
}
