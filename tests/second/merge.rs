//! Merging a list of extents (02, Ticket 9), by what it says of the file's bytes. A stretch is all that extents can say alike of neighbouring bytes: a state, and
//! but for a hole a device and how far storage lies from the file. The bytes of a stretch, as ranges that do not touch, are the extents of the result.

use crate::layout::{judge_all, Extent, Refusal};
use std::collections::BTreeMap;

const MOST_MERGED: usize = 4_096;
const MOST_LEFT: usize = 1_024;
const HOLE: u32 = 3;

/// What is said of a byte, but for the byte's own place: for a hole the state alone.
#[derive(Clone, Copy, PartialEq, Eq, PartialOrd, Ord)]
pub struct Stretch {
    pub state: u32,
    pub stored: Option<(u128, i128)>,
}

/// The first byte and the one past the last.
pub type Range = (u128, u128);

/// What is said of the file: for each stretch the ranges of its bytes.
pub type Said = BTreeMap<Stretch, Vec<Range>>;

/// The body of the merged list, or its first refusal.
pub fn merge(list: &[Extent], room: usize) -> Result<Vec<u8>, Refusal> {
    if list.len() > MOST_MERGED {
        return Err((2, 0));
    }
    judge_all(list)?;
    let mut said = Said::new();
    for (range, stretch) in list.iter().map(says) {
        said.entry(stretch).or_default().push(range);
    }
    shortest(said, room)
}

/// The body of the shortest list that says this, or its refusal.
pub fn shortest(said: Said, room: usize) -> Result<Vec<u8>, Refusal> {
    let left = extents(said);
    if left.len() > MOST_LEFT {
        return Err((28, 0));
    }
    let body = written(&left);
    if body.len() > room {
        return Err((8, 0));
    }
    Ok(body)
}

/// What an extent says, and of which bytes.
pub fn says(e: &Extent) -> (Range, Stretch) {
    let from = u128::from(e.offset);
    let distance = i128::from(e.storage) - i128::from(e.offset);
    let stored = (e.state != HOLE).then_some((e.device, distance));
    ((from, from + u128::from(e.length)), Stretch { state: e.state, stored })
}

/// The same bytes as ranges that do not touch, by rising first byte.
fn apart(mut ranges: Vec<Range>) -> Vec<Range> {
    ranges.sort_unstable();
    let mut whole: Vec<Range> = Vec::new();
    for (from, to) in ranges {
        match whole.last_mut() {
            Some(last) if from <= last.1 => last.1 = last.1.max(to),
            _ => whole.push((from, to)),
        }
    }
    whole
}

/// An extent for each range of each stretch, by rising offset, a read one before an invalid one.
fn extents(said: Said) -> Vec<(Range, Stretch)> {
    let mut left: Vec<(Range, Stretch)> = said.into_iter().flat_map(|(stretch, ranges)| apart(ranges).into_iter().map(move |range| (range, stretch))).collect();
    left.sort_unstable_by_key(|((from, _), stretch)| (*from, stretch.state));
    left
}

fn written(left: &[(Range, Stretch)]) -> Vec<u8> {
    let mut body = (left.len() as u32).to_be_bytes().to_vec();
    for ((from, to), stretch) in left {
        let (device, storage) = stretch.stored.map_or((0, 0), |(device, distance)| (device, (*from as i128 + distance) as u64));
        body.extend(device.to_be_bytes());
        body.extend([*from as u64, (to - from) as u64, storage].iter().flat_map(|number| number.to_be_bytes()));
        body.extend(stretch.state.to_be_bytes());
    }
    body
}
