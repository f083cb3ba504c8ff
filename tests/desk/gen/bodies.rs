//! Layout bodies: extents that follow the rules closely, a fault at one place, and damage to count and bytes.

use crate::random::{damage, Random, EDGES};

#[derive(Clone, Copy)]
struct Extent {
    offset: u64,
    length: u64,
    storage: u64,
    state: u32,
}

/// Where the next extent may begin: the ends of those so far, by state, and the last one.
#[derive(Default)]
struct Ends {
    solid: u64,
    read: u64,
    invalid: u64,
    last: Option<Extent>,
}

impl Ends {
    /// The least offset that an extent of this state may have.
    fn least(&self, state: u32) -> u64 {
        let (before, after_invalid) = self.last.map_or((0, false), |e| (e.offset, e.state == 2));
        match state {
            1 => self.solid.max(self.read).max(before.saturating_add(u64::from(after_invalid))),
            2 => self.solid.max(self.invalid).max(before),
            _ => self.solid.max(self.read).max(self.invalid),
        }
    }

    fn add(&mut self, e: Extent) {
        let end = e.offset.saturating_add(e.length);
        let side = match e.state {
            1 => &mut self.read,
            2 => &mut self.invalid,
            _ => &mut self.solid,
        };
        *side = end.max(*side);
        self.last = Some(e);
    }
}

/// An extent that keeps the rules, close to those before it; near 2^64 it may not fit.
fn sound(r: &mut Random, ends: &Ends) -> Extent {
    let state = r.pick(&[0, 1, 1, 2, 2, 3]);
    let gap = r.pick(&[0, 0, 0, 1, 5]);
    let offset = ends.least(state).saturating_add(gap);
    let length = 1 + r.below(12);
    let storage = if r.percent(90) { r.next() >> 1 } else { u64::MAX - length };
    let storage = if state == 3 && r.percent(30) { u64::MAX } else { storage };
    Extent { offset, length, storage, state }
}

/// Turns an extent into one that breaks a rule, or nearly.
fn fault(r: &mut Random, ends: &Ends, e: Extent) -> Extent {
    let back = |from: u64, by: u64| from.saturating_sub(by);
    match r.below(10) {
        0 => Extent { state: r.pick(&[4, 5, 256, 0x0100_0000, 0x0101, u32::MAX]), ..e },
        1 => Extent { length: 0, ..e },
        2 => Extent { length: (u64::MAX - e.offset).saturating_add(r.below(3)), ..e },
        3 => Extent { offset: r.pick(&EDGES), length: r.pick(&EDGES), ..e },
        4 => Extent { storage: u64::MAX - e.length + r.below(3).min(e.length), ..e },
        5 => Extent { offset: back(ends.last.map_or(0, |l| l.offset), r.below(2)), ..e },
        6 => Extent { offset: ends.last.map_or(0, |l| l.offset), state: 1, ..e },
        7 => Extent { offset: back(ends.solid, r.below(2)), ..e },
        8 => Extent { offset: back(ends.read, r.below(2)), ..e },
        _ => Extent { offset: back(ends.invalid, r.below(2)), ..e },
    }
}

fn extents(r: &mut Random, n: usize) -> Vec<Extent> {
    let mut ends = Ends::default();
    if r.percent(10) {
        ends.solid = u64::MAX - r.below(12 * n as u64 + 3);
    }
    let faulty = r.percent(60).then(|| r.size(n.max(1)));
    (0..n)
        .map(|place| {
            let e = sound(r, &ends);
            let faults = if faulty == Some(place) { r.pick(&[1, 1, 1, 2]) } else { 0 };
            let e = (0..faults).fold(e, |e, _| fault(r, &ends, e));
            ends.add(e);
            e
        })
        .collect()
}

fn count(r: &mut Random, n: usize) -> u32 {
    let n = n as u32;
    if r.percent(94) {
        return n;
    }
    r.pick(&[n.wrapping_sub(1), n + 1, 1024, 1025, 0x05d1_745d, 0x0ba2_e8ba, 0x8000_0000, u32::MAX])
}

/// The bytes of extents one after the other; in an RDMA list each has a handle after its offset.
fn extent_bytes(r: &mut Random, rdma: bool, n: usize) -> Vec<u8> {
    let device = r.bytes(16);
    let mut bytes = Vec::new();
    for e in extents(r, n) {
        bytes.extend(&device);
        bytes.extend(e.offset.to_be_bytes());
        if rdma {
            bytes.extend(r.bytes(4));
        }
        bytes.extend([e.length, e.storage].iter().flat_map(|number| number.to_be_bytes()));
        bytes.extend(e.state.to_be_bytes());
    }
    bytes
}

/// A list to write, and the room for its body: mostly just enough, or a byte too little; now and then more than 1,024 extents, or not whole ones.
pub fn list_to_write(r: &mut Random, rdma: bool) -> (usize, Vec<u8>) {
    let n = r.weighted(&[(30, 0), (200, 1), (250, 2), (250, 3), (150, 6), (60, 12), (3, 1024), (1, 1025)]);
    let mut bytes = extent_bytes(r, rdma, n);
    let need = 4 + bytes.len();
    if r.percent(3) {
        bytes.extend(r.bytes(4));
    }
    (r.pick(&[need, need, need, need - 1, need + 1, 0, 4, 65_536]).min(65_536), bytes)
}

pub fn layout_body(r: &mut Random, rdma: bool) -> Vec<u8> {
    let n = r.weighted(&[(30, 0), (150, 1), (250, 2), (250, 3), (200, 4), (150, 6), (60, 12), (20, 40), (2, 1023), (3, 1024), (1, 1025)]);
    let mut body = count(r, n).to_be_bytes().to_vec();
    body.extend(extent_bytes(r, rdma, n));
    if r.percent(5) {
        damage(r, &mut body);
    }
    body
}
