//! The recovery record as its ledger (01, "The recovery record" and "The ledger"): rows by file number, and the calls on them.
//! Each call is refused with its number, and then changes nothing, or is accepted.

use crate::layoutreturn::{self, read_report, Device, Name, Other, Report, Return, Stateid, BAD_STATEID, GRACE, NO_GRACE, OLD_STATEID};
use crate::refuse_if;
use std::collections::{BTreeMap, BTreeSet};

const MOST_FILES: usize = 64;
const MOST_MIRRORS: usize = 4;
/// Ticket 7: the place of a proxy, and how many places there are with it.
const PROXY: usize = 4;
const PLACES: usize = 5;
const MOST_INTENTS: usize = 8;
const NO_SOURCE: u8 = 255;

const NOENT: u32 = 2;
const EXIST: u32 = 17;
const INVAL: u32 = 22;
const NOSPC: u32 = 28;
const STALE: u32 = 70;
const DELAY: u32 = 10_008;
const RECLAIM_BAD: u32 = 10_034;

/// What is known of one registered file.
#[derive(Default)]
struct Row {
    mirrors: Vec<Device>,
    proxy: Option<Device>,
    intents: BTreeSet<u64>,
    reclaimed: BTreeSet<u64>,
    /// Ticket 13: the layout stateids of clients with an intent, as they are now.
    stateids: BTreeMap<u64, Stateid>,
    marked: bool,
    blamed: BTreeSet<usize>,
}

impl Row {
    fn is_open(&self) -> bool {
        !self.intents.is_empty()
    }

    /// Ticket 7: each device with its place, the mirrors from 0 and then the proxy.
    fn copies(&self) -> impl Iterator<Item = (usize, &Device)> {
        self.mirrors.iter().enumerate().chain(self.proxy.iter().map(|proxy| (PROXY, proxy)))
    }

    fn place_of(&self, device: &Device) -> Option<usize> {
        self.copies().find(|(_, copy)| *copy == device).map(|(place, _)| place)
    }

    /// Ticket 11: of the mirror places not blamed, the first by the direction. A proxy is no source (Ticket 7).
    fn source(&self, direction: Direction) -> u8 {
        let left = (0..self.mirrors.len()).filter(|place| !self.blamed.contains(place));
        let place = match direction {
            Direction::Lowest => left.min(),
            Direction::Highest => left.max(),
        };
        place.map_or(NO_SOURCE, |place| place as u8)
    }

    /// Ticket 2: any intent that its client has not reclaimed marks the file, and goes.
    fn end_of_grace(&mut self) {
        let lost: Vec<u64> = self.intents.difference(&self.reclaimed).copied().collect();
        self.marked |= !lost.is_empty();
        for client in lost {
            self.intents.remove(&client);
            self.stateids.remove(&client);
        }
    }

    /// Ticket 13, step 4: the stateid that this client holds, if the request's is it.
    fn holds(&self, client: u64, given: Stateid) -> Result<Stateid, u32> {
        let latest = *self.stateids.get(&client).ok_or(BAD_STATEID)?;
        refuse_if(latest.other != given.other, BAD_STATEID)?;
        match age(latest.seqid, given.seqid) {
            Age::Newer => Err(BAD_STATEID),
            Age::Older => Err(OLD_STATEID),
            Age::Latest => Ok(latest),
        }
    }

    /// Step 7 of LAYOUTRETURN, and the totals that go with it.
    fn take(&mut self, report: &Report) -> Totals {
        if report.errors.iter().any(|(device, _)| self.place_of(device).is_none()) {
            self.marked = true;
            return Totals::default();
        }
        for (device, _) in report.errors.iter().filter(|(_, status)| *status != 0) {
            self.blamed.extend(self.place_of(device));
            self.marked = true;
        }
        self.count(report)
    }

    /// Ticket 3: for each mirror and the proxy the sums over its statistics records.
    fn count(&self, report: &Report) -> Totals {
        let mut totals = Totals::default();
        for (place, copy) in self.copies() {
            for record in report.statistics.iter().filter(|record| record.device == *copy) {
                totals[place].0 += u128::from(record.read);
                totals[place].1 += u128::from(record.written);
            }
        }
        totals
    }
}

/// Ticket 13: what a seqid is beside the latest one.
enum Age {
    Latest,
    Older,
    Newer,
}

/// On the circle of all 2^32 seqids, zero among them: so many steps from the one that is given on to the latest. 0 asks for the latest.
fn age(latest: u32, given: u32) -> Age {
    const CIRCLE: u64 = 1 << 32;
    let behind = (u64::from(latest) + CIRCLE - u64::from(given)) % CIRCLE;
    match behind {
        _ if given == 0 => Age::Latest,
        0 => Age::Latest,
        1..=0x7fff_ffff => Age::Older,
        _ => Age::Newer,
    }
}

/// Ticket 13: by one, and after the last one comes 1.
fn raised(seqid: u32) -> u32 {
    seqid.checked_add(1).unwrap_or(1)
}

/// By place, all bytes that one request's statistics say were read and written.
pub type Totals = [(u128, u128); PLACES];

/// The mirror devices of a list that is not bad.
fn mirror_list(bytes: &[u8]) -> Option<Vec<Device>> {
    let ids: Vec<Device> = bytes.chunks(16).map(|id| id.try_into().ok()).collect::<Option<_>>()?;
    let different: BTreeSet<&Device> = ids.iter().collect();
    let good = (1..=MOST_MIRRORS).contains(&ids.len()) && different.len() == ids.len();
    good.then_some(ids)
}

/// Ticket 1: whether a site's clients know RFC 9737. A ledger keeps the one that it starts with.
#[derive(Clone, Copy, PartialEq)]
pub enum Edition {
    Current,
    Old,
}

/// Ticket 11: which of the places not blamed is the source.
#[derive(Clone, Copy)]
pub enum Direction {
    Lowest,
    Highest,
}

pub struct Ledger {
    rows: BTreeMap<u64, Row>,
    in_grace: bool,
    edition: Edition,
}

impl Ledger {
    pub fn fresh(edition: Edition) -> Ledger {
        Ledger { rows: BTreeMap::new(), in_grace: false, edition }
    }

    fn row(&mut self, file: u64) -> Result<&mut Row, u32> {
        self.rows.get_mut(&file).ok_or(STALE)
    }

    /// The refusal of calls that wait for the end of grace.
    fn not_in_grace(&self) -> Result<(), u32> {
        refuse_if(self.in_grace, GRACE)
    }

    /// The refusal of calls that belong in grace.
    fn in_grace(&self) -> Result<(), u32> {
        refuse_if(!self.in_grace, NO_GRACE)
    }

    pub fn register(&mut self, file: u64, mirrors: &[u8]) -> Result<(), u32> {
        self.not_in_grace()?;
        let mirrors = mirror_list(mirrors).ok_or(INVAL)?;
        refuse_if(self.rows.contains_key(&file), EXIST)?;
        refuse_if(self.rows.len() >= MOST_FILES, NOSPC)?;
        self.rows.insert(file, Row { mirrors, ..Row::default() });
        Ok(())
    }

    pub fn open(&mut self, file: u64, client: u64) -> Result<(), u32> {
        self.not_in_grace()?;
        let row = self.row(file)?;
        refuse_if(!row.intents.contains(&client) && row.intents.len() >= MOST_INTENTS, NOSPC)?;
        row.intents.insert(client);
        Ok(())
    }

    pub fn reclaim(&mut self, file: u64, client: u64) -> Result<(), u32> {
        self.in_grace()?;
        let row = self.row(file)?;
        refuse_if(!row.intents.contains(&client), RECLAIM_BAD)?;
        row.reclaimed.insert(client);
        Ok(())
    }

    pub fn close(&mut self, file: u64, client: u64) -> Result<(), u32> {
        let in_grace = self.in_grace;
        let row = self.row(file)?;
        refuse_if(!row.intents.contains(&client), BAD_STATEID)?;
        refuse_if(in_grace && !row.reclaimed.contains(&client), BAD_STATEID)?;
        row.stateids.remove(&client);
        row.intents.remove(&client);
        Ok(())
    }

    pub fn repaired(&mut self, file: u64) -> Result<(), u32> {
        let row = self.row(file)?;
        refuse_if(!row.marked, INVAL)?;
        refuse_if(row.is_open(), DELAY)?;
        row.marked = false;
        row.blamed.clear();
        Ok(())
    }

    pub fn forget(&mut self, file: u64) -> Result<(), u32> {
        self.not_in_grace()?;
        let row = self.row(file)?;
        refuse_if(row.marked || row.is_open(), DELAY)?;
        self.rows.remove(&file);
        Ok(())
    }

    /// Ticket 7.
    pub fn add_proxy(&mut self, file: u64, device: &[u8]) -> Result<(), u32> {
        self.not_in_grace()?;
        let row = self.row(file)?;
        let device: Device = device.try_into().map_err(|_| INVAL)?;
        refuse_if(row.place_of(&device).is_some(), INVAL)?;
        refuse_if(row.proxy.is_some(), EXIST)?;
        row.proxy = Some(device);
        Ok(())
    }

    /// Ticket 7: the proxy's blame goes with it, and the mark stays.
    pub fn remove_proxy(&mut self, file: u64) -> Result<(), u32> {
        self.not_in_grace()?;
        let row = self.row(file)?;
        row.proxy.take().ok_or(NOENT)?;
        row.blamed.remove(&PROXY);
        Ok(())
    }

    pub fn end_of_grace(&mut self) -> Result<(), u32> {
        self.in_grace()?;
        self.rows.values_mut().for_each(Row::end_of_grace);
        self.in_grace = false;
        Ok(())
    }

    pub fn restart(&mut self) -> Result<(), u32> {
        self.in_grace = true;
        self.rows.values_mut().for_each(|row| row.reclaimed.clear());
        self.rows.values_mut().for_each(|row| row.stateids.clear());
        Ok(())
    }

    /// Ticket 13: a stateid for a client's intent.
    pub fn set_up_stateid(&mut self, file: u64, client: u64, other: &[u8]) -> Result<(), u32> {
        self.not_in_grace()?;
        let used: Vec<Name> = self.rows.values().flat_map(|row| row.stateids.values()).map(|stateid| stateid.other).collect();
        let row = self.row(file)?;
        row.intents.get(&client).ok_or(BAD_STATEID)?;
        refuse_if(row.stateids.contains_key(&client), EXIST)?;
        let other: Name = other.try_into().map_err(|_| INVAL)?;
        refuse_if(other == [0; 12] || other == [0xff; 12], INVAL)?;
        refuse_if(used.contains(&other), INVAL)?;
        row.stateids.insert(client, Stateid { seqid: 1, other });
        Ok(())
    }

    /// A LAYOUTRETURN: the stateid of its reply, and its totals.
    pub fn layoutreturn(&mut self, file: u64, client: u64, room: usize, request: &[u8]) -> Result<(Stateid, Totals), Other> {
        match layoutreturn::judge(self.edition, self.in_grace, room, request)? {
            Return::Anonymous(body) => Ok((Stateid { seqid: 0, other: [0; 12] }, self.anonymous(file, client, &body)?)),
            Return::Ordinary(stateid, body) => Ok(self.ordinary(file, client, stateid, &body)?),
        }
    }

    /// Steps 5 to 7 in grace.
    fn anonymous(&mut self, file: u64, client: u64, body: &[u8]) -> Result<Totals, u32> {
        let report = read_report(body)?;
        let row = self.row(file)?;
        refuse_if(!row.intents.contains(&client), RECLAIM_BAD)?;
        Ok(row.take(&report))
    }

    /// Ticket 13: the rest of step 4, and steps 5 and 7. In an old record the body is read for form only.
    fn ordinary(&mut self, file: u64, client: u64, given: Stateid, body: &[u8]) -> Result<(Stateid, Totals), u32> {
        let edition = self.edition;
        let row = self.row(file)?;
        let latest = row.holds(client, given)?;
        let report = read_report(body)?;
        let next = Stateid { seqid: raised(latest.seqid), ..latest };
        row.stateids.insert(client, next);
        let totals = match edition {
            Edition::Current => row.take(&report),
            Edition::Old => Totals::default(),
        };
        Ok((next, totals))
    }

    /// The files that need repair, each with its source.
    pub fn resilver(&self, direction: Direction) -> Vec<(u64, u8)> {
        self.marked_rows(direction, |_| true)
    }

    /// The files that need repair and have no intent.
    pub fn offered(&self, direction: Direction) -> Vec<(u64, u8)> {
        self.marked_rows(direction, |row| !row.is_open())
    }

    /// Ticket 8: the lengths of the two lists, which are counted each time.
    pub fn counts(&self) -> (usize, usize) {
        (self.resilver(Direction::Lowest).len(), self.offered(Direction::Lowest).len())
    }

    fn marked_rows(&self, direction: Direction, wanted: impl Fn(&Row) -> bool) -> Vec<(u64, u8)> {
        let rows = self.rows.iter().filter(|(_, row)| row.marked && wanted(row));
        rows.map(|(file, row)| (*file, row.source(direction))).collect()
    }
}

#[cfg(test)]
mod tests {
    use super::*;

    /// What no list of calls reaches in a reasonable time.
    #[test]
    fn seqids_near_the_ends() {
        assert_eq!([raised(1), raised(u32::MAX - 1), raised(u32::MAX)], [2, u32::MAX, 1]);
        let half = 1 << 31;
        for latest in [1, 2, half - 1, half, half + 1, u32::MAX - 1, u32::MAX] {
            let of = |behind: u32| age(latest, latest.wrapping_sub(behind));
            assert!(matches!([of(0), age(latest, 0)], [Age::Latest, Age::Latest]));
            assert!(latest == 1 || matches!(of(1), Age::Older));
            assert!(latest == half - 1 || matches!(of(half - 1), Age::Older));
            assert!(latest == half || matches!(of(half), Age::Newer));
            assert!(latest == half + 1 || matches!(of(half + 1), Age::Newer));
            assert!(latest == u32::MAX || matches!(of(u32::MAX), Age::Newer));
        }
    }
}
