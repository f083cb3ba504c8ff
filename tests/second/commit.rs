//! LAYOUTCOMMIT (02, Ticket 10), by what is said of the file's bytes. The begins and ends of all extents and ranges cut the file into parts, and of every byte of a part the same is said;
//! what is said of each part after the commit makes the list, as in merging.

use crate::layout::{judge_all, Extent, Refusal};
use crate::merge::{says, shortest, Range, Said, Stretch};

const MOST_EXTENTS: usize = 1_024;
const MOST_RANGES: usize = 1_024;
const READ_WRITE: u32 = 0;
const INVALID: u32 = 2;
const INVAL: u32 = 22;
const RECLAIM_BAD: u32 = 10034;
const BAD_XDR: u32 = 10036;

/// The body of the list after the commit, or the first refusal.
pub fn commit(list: &[Extent], block: u64, commits: &[u8], room: usize) -> Result<Vec<u8>, Refusal> {
    if list.len() > MOST_EXTENTS {
        return Err((2, 0));
    }
    judge_all(list)?;
    let ranges = read(commits).ok_or((BAD_XDR, 0))?;
    if !well_made(block, &ranges) {
        return Err((INVAL, 0));
    }
    let said = said_after(list, &ranges).ok_or((RECLAIM_BAD, 0))?;
    shortest(said, room)
}

/// The ranges of a commit list, a count and an offset and a length for each; `None` where the bytes are no such list, or one of too many.
fn read(commits: &[u8]) -> Option<Vec<Range>> {
    let number = |bytes: &[u8]| bytes.iter().fold(0u128, |value, byte| value * 256 + u128::from(*byte));
    let (count, rest) = (commits.get(..4)?, &commits[4..]);
    if number(count) != rest.len() as u128 / 16 || rest.len() % 16 != 0 || rest.len() / 16 > MOST_RANGES {
        return None;
    }
    Some(rest.chunks(16).map(|range| (number(&range[..8]), number(&range[..8]) + number(&range[8..]))).collect())
}

/// Blocks of some size, of which each range is made of one or more, and no range ends above 2^64 - 1, or after a later one begins.
fn well_made(block: u64, ranges: &[Range]) -> bool {
    let block = u128::from(block);
    let blocks = |(from, to): &Range| from < to && from % block == 0 && (to - from) % block == 0 && *to <= u128::from(u64::MAX);
    let behind = |place: usize| ranges[..place].iter().all(|earlier| earlier.1 <= ranges[place].0);
    block != 0 && ranges.iter().all(blocks) && (0..ranges.len()).all(behind)
}

/// What is said of the file after the commit; `None` where a committed byte is under neither an invalid nor a read-write extent.
fn said_after(list: &[Extent], ranges: &[Range]) -> Option<Said> {
    let mut said = Said::new();
    let whole: Vec<(Range, Stretch)> = list.iter().map(says).collect();
    for part in parts(whole.iter().map(|(range, _)| range).chain(ranges)) {
        let over = |range: &Range| range.0 <= part.0 && part.1 <= range.1;
        let before = whole.iter().filter(|(range, _)| over(range)).map(|(_, stretch)| *stretch);
        let after: Vec<Stretch> = if ranges.iter().any(over) { vec![committed(before)?] } else { before.collect() };
        for stretch in after {
            said.entry(stretch).or_default().push(part);
        }
    }
    Some(said)
}

/// The parts between one begin or end and the next.
fn parts<'a>(ranges: impl Iterator<Item = &'a Range>) -> Vec<Range> {
    let mut cuts: Vec<u128> = ranges.flat_map(|(from, to)| [*from, *to]).collect();
    cuts.sort_unstable();
    cuts.dedup();
    cuts.windows(2).map(|pair| (pair[0], pair[1])).collect()
}

/// What alone is said of a committed part: what was invalid is read-write where it is stored, and what was read-write stays.
fn committed(mut before: impl Iterator<Item = Stretch>) -> Option<Stretch> {
    let stored = before.find(|stretch| stretch.state == INVALID || stretch.state == READ_WRITE)?;
    Some(Stretch { state: READ_WRITE, ..stored })
}
