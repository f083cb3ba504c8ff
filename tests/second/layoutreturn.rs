//! LAYOUTRETURN requests (01, "LAYOUTRETURN"): reading a request and a report, and steps 1 to 5. What step 4 asks of an ordinary stateid (Ticket 13), and steps 6 and 7, are the ledger's.

use crate::ledger::Edition;
use crate::refuse_if;

/// A device id.
pub type Device = [u8; 16];

/// The part of a stateid that names it.
pub type Name = [u8; 12];

/// A stateid: its seqid, a number, and the twelve bytes after it, which RFC 8881 calls its other.
#[derive(Clone, Copy, PartialEq, Eq)]
pub struct Stateid {
    pub seqid: u32,
    pub other: Name,
}

/// What a LAYOUTRETURN is answered, if not 0.
pub enum Other {
    /// A status other than 0, which is also the reply.
    Status(u32),
    /// 28: the lent reply is too short, and nothing is written.
    NoRoom,
    HandedOn,
}

impl From<u32> for Other {
    fn from(status: u32) -> Other {
        Other::Status(status)
    }
}

/// The kinds of stateid (RFC 8881, 8.2.3; Ticket 6).
#[derive(Clone, Copy, PartialEq, Eq)]
pub enum Kind {
    Anonymous,
    Bypass,
    Current,
    Invalid,
    Ordinary,
}

impl Kind {
    fn of(stateid: Stateid) -> Kind {
        match (stateid.seqid, stateid.other == [0; 12], stateid.other == [0xff; 12]) {
            (0, true, _) => Kind::Anonymous,
            (1, true, _) => Kind::Current,
            (u32::MAX, _, true) => Kind::Bypass,
            (_, false, false) => Kind::Ordinary,
            _ => Kind::Invalid,
        }
    }

    pub fn name(self) -> &'static str {
        match self {
            Kind::Anonymous => "anonymous",
            Kind::Bypass => "bypass",
            Kind::Current => "current",
            Kind::Invalid => "invalid",
            Kind::Ordinary => "ordinary",
        }
    }
}

/// A well-formed body: its device errors in their order, device and status, and its statistics.
#[derive(Default)]
pub struct Report {
    pub errors: Vec<(Device, u32)>,
    pub statistics: Vec<Statistic>,
}

/// What one statistics record (RFC 8435, 9.2) says of a device: its own counts of bytes.
pub struct Statistic {
    pub device: Device,
    pub read: u64,
    pub written: u64,
}

const BADXDR: u32 = 10_036;
const UNKNOWN_LAYOUTTYPE: u32 = 10_062;
const BADIOMODE: u32 = 10_049;
pub const OLD_STATEID: u32 = 10_024;
pub const BAD_STATEID: u32 = 10_025;
pub const GRACE: u32 = 10_013;
pub const NO_GRACE: u32 = 10_033;
const BODY_LIMIT: usize = 4_096;
const PART_LIMIT: usize = 128;
const FLEX_FILES: u32 = 4;

/// Bytes that are still to be read; each reading is `None` where they don't hold what is read.
struct Xdr<'a> {
    rest: std::slice::Iter<'a, u8>,
}

impl<'a> Xdr<'a> {
    fn over(bytes: &'a [u8]) -> Xdr<'a> {
        Xdr { rest: bytes.iter() }
    }

    fn opaque<const N: usize>(&mut self) -> Option<[u8; N]> {
        let mut taken = [0; N];
        for byte in &mut taken {
            *byte = *self.rest.next()?;
        }
        Some(taken)
    }

    fn unsigned(&mut self) -> Option<u32> {
        self.opaque().map(u32::from_be_bytes)
    }

    fn hyper(&mut self) -> Option<u64> {
        self.opaque().map(u64::from_be_bytes)
    }

    fn boolean(&mut self) -> Option<bool> {
        match self.unsigned()? {
            0 => Some(false),
            1 => Some(true),
            _ => None,
        }
    }

    /// A counted opaque of at most so many bytes, with zero bytes up to the next multiple of four.
    fn counted_opaque(&mut self, most: usize) -> Option<Vec<u8>> {
        let length = usize::try_from(self.unsigned()?).ok().filter(|n| *n <= most)?;
        let bytes: Vec<u8> = self.rest.by_ref().take(length).copied().collect();
        let padding = (4 - length % 4) % 4;
        let whole = bytes.len() == length && (0..padding).all(|_| self.rest.next() == Some(&0));
        whole.then_some(bytes)
    }

    fn end(&self) -> Option<()> {
        self.rest.as_slice().is_empty().then_some(())
    }
}

/// A well-formed request: the numbers that are judged, and for return type 1 its stateid and body.
struct Request {
    layout_type: u32,
    iomode: u32,
    one_file: Option<(Stateid, Vec<u8>)>,
}

fn read_request(request: &[u8]) -> Option<Request> {
    let mut xdr = Xdr::over(request);
    let _reclaim = xdr.boolean()?;
    let (layout_type, iomode, return_type) = (xdr.unsigned()?, xdr.unsigned()?, xdr.unsigned()?);
    let one_file = match return_type {
        1 => {
            let (_offset, _length) = (xdr.hyper()?, xdr.hyper()?);
            let stateid = Stateid { seqid: xdr.unsigned()?, other: xdr.opaque()? };
            Some((stateid, xdr.counted_opaque(BODY_LIMIT)?))
        }
        2 | 3 => None,
        _ => return None,
    };
    xdr.end()?;
    Some(Request { layout_type, iomode, one_file })
}

fn read_errors(xdr: &mut Xdr) -> Option<Vec<(Device, u32)>> {
    let mut errors = Vec::new();
    for _ in 0..xdr.unsigned()? {
        let (_offset, _length) = (xdr.hyper()?, xdr.hyper()?);
        let _stateid: [u8; 16] = xdr.opaque()?;
        for _ in 0..xdr.unsigned()? {
            let device = xdr.opaque()?;
            let (status, _operation) = (xdr.unsigned()?, xdr.unsigned()?);
            errors.push((device, status));
        }
    }
    Some(errors)
}

/// io_info4: the count of operations is not used, the count of bytes is.
fn read_io_info(xdr: &mut Xdr) -> Option<u64> {
    let (_count, bytes) = (xdr.hyper()?, xdr.hyper()?);
    Some(bytes)
}

/// nfstime4.
fn read_time(xdr: &mut Xdr) -> Option<()> {
    let (_seconds, _nseconds) = (xdr.hyper()?, xdr.unsigned()?);
    Some(())
}

/// ff_io_latency4: five numbers and two times.
fn read_latency(xdr: &mut Xdr) -> Option<()> {
    for _ in 0..5 {
        xdr.hyper()?;
    }
    read_time(xdr)?;
    read_time(xdr)
}

/// ff_layoutupdate4: the two parts of an address, a file handle, the latencies of reads and writes, a duration, and whether it is local.
fn read_update(xdr: &mut Xdr) -> Option<()> {
    for _ in 0..3 {
        xdr.counted_opaque(PART_LIMIT)?;
    }
    read_latency(xdr)?;
    read_latency(xdr)?;
    read_time(xdr)?;
    xdr.boolean().map(drop)
}

/// ff_iostats4.
fn read_statistic(xdr: &mut Xdr) -> Option<Statistic> {
    let (_offset, _length) = (xdr.hyper()?, xdr.hyper()?);
    let _stateid: [u8; 16] = xdr.opaque()?;
    let (read, written) = (read_io_info(xdr)?, read_io_info(xdr)?);
    let device = xdr.opaque()?;
    read_update(xdr)?;
    Some(Statistic { device, read, written })
}

/// Step 5: a body that ends with its statistics, or `None` where it is malformed.
fn well_formed(body: &[u8]) -> Option<Report> {
    let mut xdr = Xdr::over(body);
    let errors = read_errors(&mut xdr)?;
    let (records, mut statistics) = (xdr.unsigned()?, Vec::new());
    for _ in 0..records {
        statistics.push(read_statistic(&mut xdr)?);
    }
    xdr.end().map(|()| Report { errors, statistics })
}

/// Step 5.
pub fn read_report(body: &[u8]) -> Result<Report, u32> {
    well_formed(body).ok_or(BADXDR)
}

/// Steps 1 to 3: the stateid, its kind and the body of a file's return, or the answer.
pub fn check(request: &[u8]) -> Result<(Kind, Stateid, Vec<u8>), Other> {
    let request = read_request(request).ok_or(BADXDR)?;
    refuse_if(request.layout_type != FLEX_FILES, UNKNOWN_LAYOUTTYPE)?;
    refuse_if(!(1..=3).contains(&request.iomode), BADIOMODE)?;
    let (stateid, body) = request.one_file.ok_or(Other::HandedOn)?;
    Ok((Kind::of(stateid), stateid, body))
}

/// A file's return that goes on behind what step 4 says of its kind, with its body.
pub enum Return {
    /// In grace, with the all-zero stateid.
    Anonymous(Vec<u8>),
    /// Ticket 13: out of grace, with a stateid that the ledger has to know.
    Ordinary(Stateid, Vec<u8>),
}

/// Steps 1 to 3, and step 4 as far as edition, phase and kind decide it.
pub fn judge(edition: Edition, in_grace: bool, room: usize, request: &[u8]) -> Result<Return, Other> {
    if room < 24 {
        return Err(Other::NoRoom);
    }
    let (kind, stateid, body) = check(request)?;
    refuse_if(edition == Edition::Old && kind == Kind::Anonymous, BAD_STATEID)?;
    match (in_grace, kind) {
        (true, Kind::Anonymous) => Ok(Return::Anonymous(body)),
        (true, _) => Err(GRACE.into()),
        (false, Kind::Anonymous) => Err(NO_GRACE.into()),
        (false, Kind::Bypass | Kind::Invalid) => Err(BAD_STATEID.into()),
        (false, Kind::Current) => Err(Other::HandedOn),
        (false, Kind::Ordinary) => Ok(Return::Ordinary(stateid, body)),
    }
}
