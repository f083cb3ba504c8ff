//! Layout bodies (01, "Layout bodies"; 02, Ticket 5): reading and writing a body of either kind, and the refusals.

/// The kinds of body (02, Ticket 5): in an RDMA body a handle of four bytes stands after the file offset.
#[derive(Clone, Copy, PartialEq)]
pub enum Kind {
    Scsi,
    Rdma,
}

/// One extent of a body; the handle of a SCSI one is 0. Neither the device id nor the handle plays a part in any rule.
pub struct Extent {
    pub device: u128,
    pub offset: u64,
    pub handle: u32,
    pub length: u64,
    pub storage: u64,
    pub state: u32,
}

/// A refusal's number and the place of the extent that it is about.
pub type Refusal = (u32, usize);

const READ: u32 = 1;
const INVALID: u32 = 2;
const NONE: u32 = 3;
const MOST_EXTENTS: u128 = 1_024;

/// The next big-endian number of so many bytes, if there are as many.
fn next_number(bytes: &mut impl Iterator<Item = u8>, width: usize) -> Option<u128> {
    (0..width).try_fold(0, |value, _| Some(value * 256 + u128::from(bytes.next()?)))
}

fn next_extent(kind: Kind, bytes: &mut impl Iterator<Item = u8>) -> Option<Extent> {
    let device = next_number(bytes, 16)?;
    let offset = next_number(bytes, 8)?.try_into().ok()?;
    let handle = if kind == Kind::Rdma { next_number(bytes, 4)?.try_into().ok()? } else { 0 };
    let length = next_number(bytes, 8)?.try_into().ok()?;
    let storage = next_number(bytes, 8)?.try_into().ok()?;
    let state = next_number(bytes, 4)?.try_into().ok()?;
    Some(Extent { device, offset, handle, length, storage, state })
}

/// The extents that the bytes hold one after the other, with none left over.
pub fn list(kind: Kind, bytes: &[u8]) -> Option<Vec<Extent>> {
    let mut left = bytes.iter().copied().peekable();
    let mut extents = Vec::new();
    while left.peek().is_some() {
        extents.push(next_extent(kind, &mut left)?);
    }
    Some(extents)
}

/// The extents of a body, or its first refusal in the paper's order.
pub fn read(kind: Kind, body: &[u8]) -> Result<Vec<Extent>, Refusal> {
    let mut bytes = body.iter().copied();
    let n = next_number(&mut bytes, 4).ok_or((1, 0))?;
    if n > MOST_EXTENTS {
        return Err((2, 0));
    }
    let extents: Vec<Extent> = (0..n).map(|_| next_extent(kind, &mut bytes)).collect::<Option<_>>().ok_or((1, 0))?;
    if bytes.next().is_some() {
        return Err((1, 0));
    }
    judge_all(&extents)?;
    Ok(extents)
}

/// The body of a list, if `room` bytes have room for it, or the list's first refusal.
pub fn write(kind: Kind, room: usize, extents: &[Extent]) -> Result<Vec<u8>, Refusal> {
    if extents.len() as u128 > MOST_EXTENTS {
        return Err((2, 0));
    }
    judge_all(extents)?;
    let mut body = (extents.len() as u32).to_be_bytes().to_vec();
    for e in extents {
        body.extend(e.device.to_be_bytes());
        body.extend(e.offset.to_be_bytes());
        if kind == Kind::Rdma {
            body.extend(e.handle.to_be_bytes());
        }
        body.extend(e.length.to_be_bytes());
        body.extend(e.storage.to_be_bytes());
        body.extend(e.state.to_be_bytes());
    }
    if body.len() > room {
        return Err((8, 0));
    }
    Ok(body)
}

/// Extent by extent, from the first.
pub fn judge_all(extents: &[Extent]) -> Result<(), Refusal> {
    for place in 0..extents.len() {
        if let Some(number) = judge(&extents[..place], &extents[place]) {
            return Err((number, place));
        }
    }
    Ok(())
}

/// Rules 3 to 7 for one extent, with all that stand before it.
fn judge(earlier: &[Extent], e: &Extent) -> Option<u32> {
    if e.state > 3 {
        return Some(3);
    }
    if e.length == 0 {
        return Some(4);
    }
    if passes_the_end(e.offset, e.length) || (e.state != NONE && passes_the_end(e.storage, e.length)) {
        return Some(5);
    }
    if earlier.last().into_iter().any(|before| out_of_order(before, e)) {
        return Some(6);
    }
    if earlier.iter().any(|other| share_a_byte(other, e) && !read_and_invalid(other, e)) {
        return Some(7);
    }
    None
}

/// Offset + length above 2^64 - 1.
fn passes_the_end(offset: u64, length: u64) -> bool {
    u128::from(offset) + u128::from(length) > u128::from(u64::MAX)
}

/// Below the extent before it, or equal to it where that one is invalid and this one is read.
fn out_of_order(before: &Extent, e: &Extent) -> bool {
    e.offset < before.offset || (e.offset == before.offset && before.state == INVALID && e.state == READ)
}

/// Some file byte lies in both: the later of the two beginnings lies in both, or no byte does.
fn share_a_byte(a: &Extent, b: &Extent) -> bool {
    let byte = u128::from(a.offset.max(b.offset));
    let holds = |e: &Extent| u128::from(e.offset) <= byte && byte < u128::from(e.offset) + u128::from(e.length);
    holds(a) && holds(b)
}

fn read_and_invalid(a: &Extent, b: &Extent) -> bool {
    (a.state == READ && b.state == INVALID) || (a.state == INVALID && b.state == READ)
}
