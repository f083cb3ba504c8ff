//! LAYOUTCOMMITs (Ticket 10): a file of parts, each with what lies over it; extents that hold one part or several, and whose storage goes on or does not; ranges at, inside,
//! across and beyond their ends; and one thing that is wrong with the extents, the ranges or the commit list. In this order: parts; extents; ranges; faults; many ranges; a commit.

use crate::merges::{bytes, spoil, Extent};
use crate::random::{damage, Device, Random};

/// A LAYOUTCOMMIT, as the desk has it.
pub struct Commit {
    pub block: u64,
    pub room: u64,
    pub ranges: Vec<u8>,
    pub extents: Vec<u8>,
}

/// Bytes of the file over which the same lies: a read extent, or none; and one of another state, or none.
#[derive(Clone, Copy)]
struct Part {
    from: u64,
    to: u64,
    read: bool,
    other: Option<u32>,
}

/// The first byte and the one past the last.
type Range = (u64, u64);

const INVALID: Option<u32> = Some(2);

/// What lies over a part: a read extent or none, and the state of another.
type Over = (bool, Option<u32>);

/// How often each lies over a part: in a file of all kinds; where all may be committed; and before a copy on write.
const KINDS: [&[(u64, Over)]; 3] = [
    &[(3, (false, INVALID)), (3, (true, INVALID)), (2, (false, Some(0))), (1, (false, Some(3))), (1, (true, None)), (1, (false, None))],
    &[(3, (false, INVALID)), (3, (true, INVALID)), (2, (false, Some(0)))],
    &[(1, (false, INVALID)), (5, (true, INVALID)), (2, (true, None))],
];

// ---- Parts ----

/// Where so many parts begin and end: whole blocks, or nearly so; somewhere in the file, or up to its last byte.
fn cuts(r: &mut Random, block: u64, n: usize) -> Vec<u64> {
    if block > 1 << 40 {
        let mut cuts: Vec<u64> = (1..n).map(|_| r.next()).collect();
        cuts.extend([0, u64::MAX]);
        cuts.sort_unstable();
        return cuts;
    }
    let off = if r.percent(15) { r.below(block) } else { 0 };
    let lengths: Vec<u64> = (0..n).map(|_| block * (1 + r.below(4)) + if r.percent(10) { off } else { 0 }).collect();
    let total: u64 = lengths.iter().sum();
    let first = match r.below(10) {
        0 => (u64::MAX - total) / block * block,
        1 => u64::MAX - total,
        2 | 3 => 0,
        _ => block * r.below(1000) + off,
    };
    let mut cuts = vec![first];
    for length in lengths {
        cuts.push(cuts[cuts.len() - 1] + length);
    }
    cuts
}

fn parts(r: &mut Random, block: u64, n: usize) -> Vec<Part> {
    let kinds = r.pick(&KINDS);
    let mut parts: Vec<Part> = Vec::new();
    for pair in cuts(r, block, n).windows(2).filter(|pair| pair[0] < pair[1]) {
        let like = parts.last().filter(|_| r.percent(30)).map(|last| (last.read, last.other));
        let (read, other) = like.unwrap_or_else(|| r.weighted(kinds));
        parts.push(Part { from: pair[0], to: pair[1], read, other });
    }
    parts
}

// ---- Extents ----

/// The next extent of a row: the last one goes on over this part, or a new one begins, which goes on in storage or does not.
fn add(r: &mut Random, devices: &[Device], row: &mut Vec<Extent>, part: &Part, state: u32) {
    let length = part.to - part.from;
    let mut e = Extent { device: r.pick(devices), offset: part.from, length, storage: r.below((u64::MAX - length).min(1 << 40) + 1), state };
    if let Some(last) = row.last_mut() {
        let touch = last.offset + last.length == part.from;
        let storage = last.storage.wrapping_add(last.length);
        if touch && last.state == state && r.percent(50) {
            last.length += length;
            last.storage = last.storage.min(u64::MAX - last.length);
            return;
        }
        if touch && storage <= u64::MAX - length && r.percent(70) {
            e.device = last.device;
            e.storage = if r.percent(85) { storage } else { e.storage };
        }
    }
    row.push(e);
}

/// The extents over the parts, in the order of a body.
fn extents(r: &mut Random, parts: &[Part]) -> Vec<Extent> {
    let devices = r.devices(3);
    let (mut reads, mut others) = (Vec::new(), Vec::new());
    for part in parts {
        if part.read {
            add(r, &devices, &mut reads, part, 1);
        }
        if let Some(state) = part.other {
            add(r, &devices, &mut others, part, state);
        }
    }
    reads.extend(others);
    reads.sort_by_key(|e| (e.offset, e.state));
    reads
}

// ---- Ranges ----

/// The ends of the blocks that may be a range's, in the bytes from one to another: at both ends, at parts' ends and next to them, and anywhere.
fn points(r: &mut Random, block: u64, parts: &[Part]) -> Vec<u64> {
    let (first, last) = (parts[0].from, parts[parts.len() - 1].to);
    let mut points = Vec::new();
    for cut in parts.iter().flat_map(|part| [part.from, part.to]) {
        let down = cut - cut % block;
        points.push(down);
        if r.percent(30) {
            points.extend([down.saturating_add(block), down.saturating_sub(block)]);
        }
        if r.percent(10) {
            let any = first + r.next() % (last - first);
            points.push(any - any % block);
        }
    }
    points.extend([first - first % block, (first - first % block).saturating_add(block)]);
    points.retain(|point| first <= *point && *point <= last && point % block == 0);
    points.sort_unstable();
    points.dedup();
    points
}

/// Ranges between points in a row: taken or not, and where two that touch are taken, as one or as two.
fn between(r: &mut Random, points: &[u64]) -> Vec<Range> {
    let mut ranges: Vec<Range> = Vec::new();
    for pair in points.windows(2) {
        if r.percent(55) {
            match ranges.last_mut() {
                Some(last) if last.1 == pair[0] && r.percent(60) => last.1 = pair[1],
                _ => ranges.push((pair[0], pair[1])),
            }
        }
    }
    ranges
}

/// Ranges in the bytes that may be committed; now and then over all parts, whatever lies there.
fn ranges(r: &mut Random, block: u64, parts: &[Part]) -> Vec<Range> {
    let anywhere = r.percent(10);
    let may = |part: &Part| anywhere || part.other == INVALID || part.other == Some(0);
    let mut ranges = Vec::new();
    for span in parts.split(|part| !may(part)).filter(|span| !span.is_empty()) {
        let points = points(r, block, span);
        ranges.extend(between(r, &points));
    }
    ranges
}

// ---- Faults ----

/// A range goes on by a block before or behind it: over an end of extents, or into another range.
fn beyond(r: &mut Random, block: u64, ranges: &mut [Range]) {
    let place = r.size(ranges.len());
    let range = &mut ranges[place];
    if r.percent(50) {
        range.0 = range.0.saturating_sub(block);
    } else {
        range.1 = range.1.saturating_add(block);
    }
}

/// One thing of the ranges is made wrong, as offset and length.
fn wrong_range(r: &mut Random, block: u64, list: &mut Vec<(u64, u64)>) {
    let place = r.size(list.len());
    let other = r.size(list.len());
    let range = &mut list[place];
    match r.below(9) {
        0 => range.1 = 0,
        1 => range.0 = range.0.wrapping_add(1),
        2 => range.1 = range.1.wrapping_add(1),
        3 => range.1 = (u64::MAX - range.0).wrapping_add(1) / block * block,
        4 => *range = (0u64.wrapping_sub(block), block),
        5 => list.swap(place, other),
        6 => list.push(list[place]),
        7 => list.insert(other, list[place]),
        _ => range.0 = range.0.wrapping_sub(block),
    }
}

/// A count of so many ranges, or nearly, and the ranges.
fn list_bytes(r: &mut Random, list: &[(u64, u64)]) -> Vec<u8> {
    let n = list.len() as u32;
    let count = if r.percent(95) { n } else { r.pick(&[n.wrapping_sub(1), n + 1, 1024, 1025, 0x1000_0000 | n, 0x8000_0000, u32::MAX]) };
    let mut bytes = count.to_be_bytes().to_vec();
    bytes.extend(list.iter().flat_map(|(offset, length)| [*offset, *length]).flat_map(u64::to_be_bytes));
    if r.percent(4) {
        damage(r, &mut bytes);
    }
    bytes
}

// ---- Many ranges ----

/// Ranges of one block in a row, that touch or that leave a block between them, in one extent or in one for each; some with a read extent under it all.
fn many(r: &mut Random, block: u64) -> (Vec<Extent>, Vec<Range>) {
    let m = r.pick(&[511, 512, 513, 1023, 1024, 1025]);
    let every = r.pick(&[1, 2]);
    let before = block * r.below(2);
    let all = before + block * every * m - if r.percent(50) { block * (every - 1) } else { 0 };
    let ranges = (0..m).map(|k| before + block * every * k).map(|from| (from, from + block)).collect();
    let device = r.devices(1)[0];
    let mut extents = Vec::new();
    if r.percent(40) {
        extents.push(Extent { device, offset: 0, length: all, storage: 7, state: 1 });
    }
    let whole = r.percent(50);
    let shift = r.pick(&[0, 0, 1]);
    let pieces = if whole { 1 } else { all / block };
    for k in 0..pieces {
        extents.push(Extent { device, offset: block * k, length: if whole { all } else { block }, storage: 1000 + (block + shift) * k, state: 2 });
    }
    (extents, ranges)
}

// ---- A commit ----

/// How many parts a file has: mostly few, now and then more than a list may have extents.
fn size(r: &mut Random) -> usize {
    r.weighted(&[(40, 1), (80, 2), (150, 3), (150, 5), (120, 8), (60, 20), (15, 100), (2, 700), (1, 1100)])
}

pub fn commit(r: &mut Random) -> Commit {
    let block = r.weighted(&[(30, 1), (20, 7), (20, 512), (30, 4096), (5, u64::MAX), (2, 1 << 32)]);
    let (mut list, mut ranges) = if block <= 4096 && r.percent(3) {
        many(r, block)
    } else {
        let n = size(r);
        let parts = parts(r, block, n);
        (extents(r, &parts), ranges(r, block, &parts))
    };
    if !ranges.is_empty() && r.percent(10) {
        beyond(r, block, &mut ranges);
    }
    if !list.is_empty() && r.percent(6) {
        spoil(r, &mut list);
    }
    let mut pairs: Vec<(u64, u64)> = ranges.iter().map(|(from, to)| (*from, to - from)).collect();
    if !pairs.is_empty() && r.percent(10) {
        wrong_range(r, block, &mut pairs);
    }
    let other = r.pick(&[0, 1, 2, block - 1, block.saturating_add(1), block.saturating_mul(2), u64::MAX]);
    let about = 4 + 44 * r.below(list.len() as u64 + ranges.len() as u64 + 2);
    Commit {
        block: if r.percent(5) { other } else { block },
        room: r.pick(&[45_060, 45_060, 45_060, 45_059, 65_536, about, about, about - 1]).min(65_536),
        ranges: list_bytes(r, &pairs),
        extents: bytes(&list),
    }
}
