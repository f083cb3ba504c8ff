//! LAYOUTRETURN requests: error and statistics records, the fixed part around them, and damage to either.

use crate::random::{damage, Device, Random, EDGES};

/// Counts that are off, and ones whose product with 24, 36 or 60 passes 2^32.
const COUNTS: [u32; 8] = [0, 1, 2, 0x0aaa_aaab, 0x071c_71c8, 0x0444_4445, 0x8000_0000, 0xffff_ffff];
const STATUSES: [u32; 9] = [0, 0, 0, 5, 28, 256, 0x0100_0000, 0x8000_0000, 0xffff_ffff];
const BODY_LIMIT: usize = 4096;

fn put(bytes: &mut Vec<u8>, number: u32) {
    bytes.extend(number.to_be_bytes());
}

fn put_range(r: &mut Random, bytes: &mut Vec<u8>) {
    for _ in 0..2 {
        bytes.extend(r.pick(&EDGES).to_be_bytes());
    }
}

/// The count itself, or now and then a wrong one.
fn count(r: &mut Random, right: usize, wrong: u64) -> u32 {
    let right = right as u32;
    if !r.percent(wrong) {
        return right;
    }
    if r.percent(50) {
        r.pick(&COUNTS)
    } else {
        right.wrapping_add(r.pick(&[1, u32::MAX]))
    }
}

fn put_record(r: &mut Random, body: &mut Vec<u8>, devices: &[Device], errors: usize, wrong: u64) {
    put_range(r, body);
    body.extend(if r.percent(50) { vec![0; 16] } else { r.bytes(16) });
    put(body, count(r, errors, wrong));
    for _ in 0..errors {
        body.extend(r.pick(devices));
        put(body, r.pick(&STATUSES));
        put(body, r.next() as u32);
    }
}

/// Lengths of an address part or a file handle: short ones, each padding, and about the limit of 128.
const LENGTHS: [usize; 12] = [0, 1, 2, 3, 4, 5, 8, 20, 28, 126, 127, 128];
/// Counts of bytes: small, and such that two of them pass 2^64 - 1 by one, end there, or stay below.
const BYTES: [u64; 10] = [0, 0, 1, 4096, 0x8000_0000_0000_0000, 0x7fff_ffff_ffff_ffff, u64::MAX, u64::MAX - 1, u64::MAX - 4096, u64::MAX - 4095];

/// A counted string with its padding; `wrong` is how often, of a hundred, it is too long or its padding is not zero.
fn put_string(r: &mut Random, body: &mut Vec<u8>, wrong: u64) {
    let length = if r.percent(wrong) { r.pick(&[129, 130, 132, 256]) } else { r.pick(&LENGTHS) };
    put(body, length as u32);
    body.extend(r.bytes(length));
    let padding = (4 - length % 4) % 4;
    body.extend(vec![0; padding]);
    if padding > 0 && r.percent(wrong) {
        let last = body.len() - 1 - r.size(padding);
        body[last] = 1 << r.below(8);
    }
}

/// A statistics record of a device: ff_iostats4, whose latencies are any bytes.
fn put_statistic(r: &mut Random, body: &mut Vec<u8>, device: Device, wrong: u64) {
    put_range(r, body);
    body.extend(r.bytes(16));
    for _ in 0..2 {
        body.extend(r.pick(&EDGES).to_be_bytes());
        body.extend(r.pick(&BYTES).to_be_bytes());
    }
    body.extend(device);
    for _ in 0..3 {
        put_string(r, body, wrong);
    }
    body.extend(r.bytes(140));
    let local = r.below(2) as u32;
    put(body, if r.percent(wrong) { r.pick(&[2, 256, 0x0100_0000, 0xffff_ffff]) } else { local });
}

/// So many statistics records, of a few of the devices, so that sums come about.
fn put_statistics(r: &mut Random, body: &mut Vec<u8>, devices: &[Device], wrong: u64) {
    let records = r.pick(&[0, 0, 0, 1, 1, 2, 3, 4, 8]);
    let few = 1 + r.size(devices.len());
    put(body, count(r, records, wrong));
    for _ in 0..records {
        let device = r.pick(&devices[..few]);
        put_statistic(r, body, device, wrong);
    }
}

/// Error records and statistics; `wrong` is how often, of a hundred, each count, string or boolean is not right.
fn body(r: &mut Random, devices: &[Device], wrong: u64) -> Vec<u8> {
    let records = r.pick(&[0, 1, 1, 1, 2, 2, 3, 20]);
    let few = 1 + r.size(devices.len());
    let mut body = Vec::new();
    put(&mut body, count(r, records, wrong));
    for _ in 0..records {
        let errors = r.pick(&[0, 1, 1, 1, 2, 3]);
        put_record(r, &mut body, &devices[..few], errors, wrong);
    }
    put_statistics(r, &mut body, devices, wrong);
    body
}

/// A body of exactly so many bytes: as many device errors as fit, then what is left over.
fn sized_body(r: &mut Random, devices: &[Device], size: usize) -> Vec<u8> {
    let mut body = vec![0, 0, 0, 2];
    let half = (size.saturating_sub(80) / 24) / 2;
    put_record(r, &mut body, devices, half, 0);
    put_record(r, &mut body, devices, size.saturating_sub(80) / 24 - half, 0);
    put(&mut body, r.pick(&[0, 0, 1]));
    let spare = if r.percent(70) { 0 } else { 0xee };
    body.resize(size, spare);
    body
}

/// A seqid and an other that are a fixed string of RFC 8881, 8.2.3, or nearly: seqids 0, 1, 2 and 2^32 - 1, an other of zeros or of ones, or one that
/// differs from it in its first or last byte.
fn special(r: &mut Random) -> Vec<u8> {
    let seqid: u32 = r.pick(&[0, 1, 2, u32::MAX]);
    let mut stateid = seqid.to_be_bytes().to_vec();
    let fill = r.pick(&[0, 0xff]);
    stateid.extend(vec![fill; 12]);
    match r.below(6) {
        0 => stateid[4] ^= 1 << r.below(8),
        1 => stateid[15] ^= 1 << r.below(8),
        _ => {}
    }
    stateid
}

/// A stateid: `often` of a hundred one as above, else mostly the all-zero one, which a report takes.
fn stateid(r: &mut Random, often: u64) -> Vec<u8> {
    if r.percent(often) {
        return special(r);
    }
    let mut stateid = vec![0; 16];
    match r.below(40) {
        0 | 1 => stateid[r.size(16)] = 1 << r.below(8),
        2 => stateid = r.bytes(16),
        _ => {}
    }
    stateid
}

/// A field's right value, or now and then one of its wrong ones.
fn field(r: &mut Random, right: u32, wrong: &[u32]) -> u32 {
    if r.percent(3) {
        r.pick(wrong)
    } else {
        right
    }
}

/// The fixed part with the stateid, and the body with its padding; the length that it states may be off.
fn request_with(r: &mut Random, body: &[u8], stateid: &[u8]) -> Vec<u8> {
    let mut q = Vec::new();
    let reclaim = r.pick(&[0, 0, 0, 1]);
    put(&mut q, field(r, reclaim, &[2, 256, 0x0100_0000, 0xffff_ffff]));
    put(&mut q, field(r, 4, &[0, 1, 3, 5, 0x0104, 0x0400_0000, 0xffff_ffff]));
    let iomode = r.pick(&[1, 2, 3]);
    put(&mut q, field(r, iomode, &[0, 4, 0x0101, 0x0100_0000, 0xffff_ffff]));
    let return_type = field(r, 1, &[0, 2, 2, 2, 3, 3, 3, 4, 0x0101, 0xffff_ffff]);
    put(&mut q, return_type);
    if return_type != 1 && r.percent(70) {
        return q;
    }
    put_range(r, &mut q);
    q.extend(stateid);
    let length = body.len() as u32;
    put(&mut q, field(r, length, &[length.wrapping_sub(1), length + 1, length.wrapping_sub(4), length + 4, 0, 0xffff_fffc, 0xffff_ffff]));
    q.extend(body);
    let padding = field(r, length.wrapping_neg() % 4, &[0, 1, 2, 3, 4]);
    let fill = if r.percent(90) { 0 } else { 1 << r.below(8) };
    q.extend(vec![0; padding as usize]);
    if padding > 0 && fill != 0 {
        let last = q.len() - 1 - r.size(padding as usize);
        q[last] = fill;
    }
    q
}

/// A request that names these devices, `often` of a hundred with a special stateid.
pub fn request(r: &mut Random, devices: &[Device], often: u64) -> Vec<u8> {
    let stateid = stateid(r, often);
    request_of(r, devices, &stateid, 20).0
}

/// A request with this stateid: eight of `kinds` with a body of wrong counts, of an edge's size, or damaged, the others with a sound one; and whether
/// it is known to be sound.
pub fn request_of(r: &mut Random, devices: &[Device], stateid: &[u8], kinds: u64) -> (Vec<u8>, bool) {
    let kind = r.below(kinds);
    let body = match kind {
        0..=2 => body(r, devices, 8),
        3 => {
            let off = r.size(12);
            sized_body(r, devices, BODY_LIMIT - 8 + off)
        }
        4 => {
            let small = r.size(120);
            sized_body(r, devices, small)
        }
        5..=7 => {
            let mut body = body(r, devices, 0);
            damage(r, &mut body);
            body
        }
        _ => body(r, devices, 0),
    };
    let mut request = request_with(r, &body, stateid);
    let sound = kind > 7 && body.len() <= BODY_LIMIT && fixed_part_is_right(&request, body.len());
    if r.percent(8) {
        damage(r, &mut request);
        return (request, false);
    }
    (request, sound)
}

/// Whether a request is a file's return of a body of so many bytes, which is a multiple of four, and is right up to that body.
fn fixed_part_is_right(request: &[u8], body: usize) -> bool {
    let number = |at: usize| request.get(at..at + 4).map(|bytes| u32::from_be_bytes(bytes.try_into().expect("4 bytes")));
    let right = |at: usize, wanted: &[u32]| number(at).map_or(false, |number| wanted.contains(&number));
    right(0, &[0, 1]) && right(4, &[4]) && right(8, &[1, 2, 3]) && right(12, &[1]) && right(48, &[body as u32]) && request.len() == 52 + body
}
