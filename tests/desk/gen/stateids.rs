//! Layout stateids (Ticket 13): what the generator takes to be held, so that many returns are accepted, and the stateids that calls name: right ones, near
//! ones, those of others, and those that have ended. It may err, since it reads no answers.

use crate::random::{Random, EDGES};
use std::collections::{BTreeMap, BTreeSet};

pub type Name = [u8; 12];
/// A file and a client.
pub type Holder = (u64, u64);

#[derive(Default)]
pub struct Held {
    grace: bool,
    opened: BTreeSet<Holder>,
    reclaimed: BTreeSet<Holder>,
    held: BTreeMap<Holder, (Name, u32)>,
    ended: Vec<(Holder, (Name, u32))>,
}

/// The twelve bytes of a word of hex that can be a stateid's.
fn name_of(word: &str) -> Option<Name> {
    let bytes: Option<Vec<u8>> = (0..word.len() / 2).map(|i| u8::from_str_radix(&word[2 * i..2 * i + 2], 16).ok()).collect();
    let name: Name = bytes?.try_into().ok()?;
    (name != [0; 12] && name != [0xff; 12]).then_some(name)
}

impl Held {
    /// Takes a call for one that is accepted where it may be.
    pub fn note(&mut self, line: &str) {
        let words: Vec<&str> = line.split(' ').collect();
        let number = |k: usize| words.get(k).and_then(|word| word.parse().ok()).unwrap_or(0);
        let holder = (number(1), number(2));
        match words[0] {
            "fresh" => *self = Held::default(),
            "restart" => self.restart(),
            "end" if self.grace => {
                self.grace = false;
                self.opened = &self.opened & &self.reclaimed;
            }
            "open" if !self.grace => {
                self.opened.insert(holder);
            }
            "reclaim" if self.grace => {
                self.reclaimed.insert(holder);
            }
            "close" if !self.grace || self.reclaimed.contains(&holder) => {
                self.opened.remove(&holder);
                self.ended.extend(self.held.remove(&holder).map(|stateid| (holder, stateid)));
            }
            "stateid" if !self.grace && self.opened.contains(&holder) && !self.held.contains_key(&holder) => {
                let name = name_of(words[3]).filter(|name| !self.in_use(name));
                self.held.extend(name.map(|name| (holder, (name, 1))));
            }
            _ => {}
        }
    }

    fn restart(&mut self) {
        self.grace = true;
        self.reclaimed.clear();
        self.ended.extend(std::mem::take(&mut self.held));
    }

    pub fn in_grace(&self) -> bool {
        self.grace
    }

    fn in_use(&self, name: &Name) -> bool {
        self.held.values().any(|(held, _)| held == name)
    }

    /// A return with this stateid and a sound request: it raises the seqid if it is the latest.
    pub fn returned(&mut self, holder: Holder, stateid: &[u8]) {
        if let Some((name, latest)) = self.held.get_mut(&holder) {
            let seqid = u32::from_be_bytes(stateid[..4].try_into().expect("4 bytes"));
            if stateid[4..] == *name && (seqid == 0 || seqid == *latest) && !self.grace {
                *latest = latest.checked_add(1).unwrap_or(1);
            }
        }
    }

    /// A file and a client for a set-up: mostly with an intent that has no stateid.
    pub fn without(&self, r: &mut Random, any: Holder) -> Holder {
        let free: Vec<Holder> = self.opened.iter().filter(|holder| !self.held.contains_key(holder)).copied().collect();
        if free.is_empty() || r.percent(30) {
            any
        } else {
            r.pick(&free)
        }
    }

    /// A file and a client for a return: mostly with a stateid, now and then with one that has ended.
    pub fn holder(&self, r: &mut Random, any: Holder) -> Holder {
        let held: Vec<Holder> = self.held.keys().copied().collect();
        match r.below(20) {
            0 => any,
            1 if !self.ended.is_empty() => self.ended[r.size(self.ended.len())].0,
            _ if !held.is_empty() => r.pick(&held),
            _ => any,
        }
    }

    /// The bytes for a set-up: mostly a name that is not in use; else one that is, zeros, ones, or of another length.
    pub fn name(&self, r: &mut Random, names: &[Name]) -> Vec<u8> {
        let used: Vec<Name> = self.held.values().map(|(name, _)| *name).collect();
        let free: Vec<Name> = names.iter().filter(|name| !used.contains(name)).copied().collect();
        match r.below(20) {
            0 | 1 => {
                let mut name = r.pick(names).to_vec();
                name.resize(r.pick(&[0, 1, 8, 11, 13, 16, 24]), 0x33);
                name
            }
            2 => vec![0; 12],
            3 => vec![0xff; 12],
            4..=6 if !used.is_empty() => r.pick(&used).to_vec(),
            _ if !free.is_empty() => r.pick(&free).to_vec(),
            _ => r.bytes(12),
        }
    }

    /// A stateid for a return of this holder: mostly its own with the latest seqid or 0; else another seqid, or another's name, or one near it.
    pub fn stateid(&self, r: &mut Random, holder: Holder, names: &[Name]) -> Vec<u8> {
        let ended = self.ended.iter().rev().find(|(of, _)| *of == holder).map(|(_, stateid)| *stateid);
        let (name, latest) = self.held.get(&holder).copied().or(ended).unwrap_or((r.pick(names), 1));
        let mut stateid = seqid(r, latest).to_be_bytes().to_vec();
        stateid.extend(self.near(r, name, names));
        stateid
    }

    fn near(&self, r: &mut Random, mut name: Name, names: &[Name]) -> Name {
        let others: Vec<Name> = self.held.values().map(|(other, _)| *other).filter(|other| *other != name).collect();
        match r.below(24) {
            0 if !others.is_empty() => r.pick(&others),
            1 => r.pick(names),
            2 => {
                name[r.pick(&[0, 7, 8, 11])] ^= 1 << r.below(8);
                name
            }
            _ => name,
        }
    }
}

/// A seqid beside the latest: mostly 0 or the latest; else one behind or ahead, about 2^31 behind, at the ends of its width, or any.
fn seqid(r: &mut Random, latest: u32) -> u32 {
    let half = 1u32 << 31;
    match r.below(24) {
        0..=5 => 0,
        6..=14 => latest,
        15 | 16 => latest.wrapping_sub(1),
        17 => latest.wrapping_add(1),
        18 => latest.wrapping_sub(half - 1),
        19 => latest.wrapping_sub(half),
        20 => latest.wrapping_sub(half + 1),
        21 => r.pick(&[1, 2, u32::MAX, u32::MAX - 1, half]),
        22 => latest.wrapping_sub(r.pick(&[2, 3, 4, 5])),
        _ => r.pick(&EDGES) as u32 ^ r.next() as u32 & 7,
    }
}

/// A few names that can be stateids', most of which differ in one bit or have a half in common, and two that are nearly zeros and nearly ones.
pub fn names(r: &mut Random) -> Vec<Name> {
    let base: Name = r.bytes(12).try_into().expect("12 bytes");
    let (mut low, mut high) = ([0; 12], [0xff; 12]);
    low[r.pick(&[0, 7, 8, 11])] = 1;
    high[r.pick(&[0, 7, 8, 11])] = 0xfe;
    let mut names = vec![base, low, high];
    for place in [0, 3, 4, 7, 8, 11] {
        let mut near = base;
        near[place] ^= 1 << r.below(8);
        names.push(near);
    }
    r.shuffle(&mut names);
    names
}
