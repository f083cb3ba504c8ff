//! Lists of extents to be merged (Ticket 9): runs that touch, of each state; read beside invalid; runs broken by a device, by storage or by a gap.

use crate::random::{Device, Random};

#[derive(Clone, Copy)]
pub struct Extent {
    pub device: Device,
    pub offset: u64,
    pub length: u64,
    pub storage: u64,
    pub state: u32,
}

/// What breaks a run now and then.
#[derive(Clone, Copy, PartialEq)]
enum Break {
    Never,
    Device,
    Storage,
    Gap,
    State,
    Any,
}

/// A row of extents that touch, broken so many times in a hundred.
struct Row {
    state: u32,
    at: Extent,
    breaks: Break,
    percent: u64,
}

impl Row {
    fn new(r: &mut Random, devices: &[Device], state: u32, breaks: Break, percent: u64) -> Row {
        let start = if r.percent(90) { r.below(1000) } else { u64::MAX - 100_000 };
        Row { state, at: Extent { device: r.pick(devices), offset: start, length: 0, storage: r.below(1 << 40), state }, breaks, percent }
    }

    /// The next one: it begins just where the last one ended, unless the run is broken there.
    fn next(&mut self, r: &mut Random, devices: &[Device], length: u64) -> Extent {
        let mut e = self.at;
        e.offset += e.length;
        e.storage = e.storage.wrapping_add(e.length);
        e.length = length;
        if r.percent(self.percent) {
            let breaks = if self.breaks == Break::Any { r.pick(&[Break::Device, Break::Storage, Break::Gap, Break::State]) } else { self.breaks };
            match breaks {
                Break::Device => e.device = r.pick(devices),
                Break::Storage => e.storage = e.storage.wrapping_add(r.pick(&[1, u64::MAX, 4096])) & (u64::MAX >> 1),
                Break::Gap => e.offset += 1 + r.below(3),
                Break::State if self.state == 0 || self.state == 3 => e.state = 3 - e.state,
                _ => {}
            }
        }
        if e.state == 3 && r.percent(20) {
            e.device = r.pick(devices);
            e.storage = r.next();
        }
        self.at = e;
        e
    }
}

/// Read and invalid extents over the same bytes, in the order that rule 6 asks for.
fn beside(r: &mut Random, devices: &[Device], n: usize, breaks: Break, percent: u64) -> Vec<Extent> {
    let mut rows = [Row::new(r, devices, 1, breaks, percent), Row::new(r, devices, 2, breaks, percent)];
    rows[1].at.offset = rows[0].at.offset;
    let mut list = Vec::new();
    while list.len() < n {
        let ends = rows.iter().map(|row| row.at.offset + row.at.length).collect::<Vec<_>>();
        let row = if ends[0] <= ends[1] { 0 } else { 1 };
        let length = 1 + r.below(9);
        list.push(rows[row].next(r, devices, length));
    }
    list.sort_by_key(|e| (e.offset, e.state));
    list
}

fn in_a_row(r: &mut Random, devices: &[Device], n: usize, state: u32, breaks: Break, percent: u64) -> Vec<Extent> {
    let mut row = Row::new(r, devices, state, breaks, percent);
    (0..n)
        .map(|_| {
            let length = 1 + r.below(9);
            row.next(r, devices, length)
        })
        .collect()
}

/// One thing of a list is made wrong, or nearly.
pub fn spoil(r: &mut Random, list: &mut [Extent]) {
    let place = r.size(list.len());
    let before = list[place.saturating_sub(1)];
    let e = &mut list[place];
    match r.below(6) {
        0 => e.state = r.pick(&[4, 5, u32::MAX]),
        1 => e.length = 0,
        2 => e.length = u64::MAX - e.offset + r.below(2),
        3 => e.storage = u64::MAX - e.length + r.below(2).min(e.length),
        4 => e.offset = before.offset.saturating_sub(r.below(2)),
        _ => e.offset = e.offset.saturating_sub(1),
    }
}

pub fn bytes(list: &[Extent]) -> Vec<u8> {
    let mut bytes = Vec::new();
    for e in list {
        bytes.extend(e.device);
        bytes.extend([e.offset, e.length, e.storage].iter().flat_map(|number| number.to_be_bytes()));
        bytes.extend(e.state.to_be_bytes());
    }
    bytes
}

/// A list of so many extents, and about how many bytes its body takes if nothing is merged.
pub fn merge_list(r: &mut Random, n: usize) -> Vec<u8> {
    let devices = r.devices(3);
    let breaks = r.pick(&[Break::Never, Break::Device, Break::Storage, Break::Gap, Break::State, Break::Any]);
    let percent = r.pick(&[1, 10, 25, 50, 100]);
    let mut list = match r.below(6) {
        0 | 1 => beside(r, &devices, n, breaks, percent),
        _ => {
            let state = r.pick(&[0, 1, 2, 3]);
            in_a_row(r, &devices, n, state, breaks, percent)
        }
    };
    if n > 0 && r.percent(15) {
        spoil(r, &mut list);
    }
    bytes(&list)
}

/// How many extents a list has: mostly few, now and then at a limit.
pub fn merge_size(r: &mut Random) -> usize {
    r.weighted(&[(20, 0), (60, 1), (200, 2), (250, 4), (200, 7), (150, 20), (40, 100), (3, 1023), (4, 1024), (4, 1025), (4, 4096), (1, 4097), (1, 4100)])
}
