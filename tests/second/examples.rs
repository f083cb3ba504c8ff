//! The marked examples K1 to K15 (01, "Marked examples") and those of the tickets (02), each as the lines that a desk would send and the lines that come back.

use crate::{run_line, Desk, Edition};

const A: &str = "a0a0a0a0a0a0a0a0a0a0a0a0a0a0a001";
const B: &str = "b0b0b0b0b0b0b0b0b0b0b0b0b0b0b002";
const C: &str = "c0c0c0c0c0c0c0c0c0c0c0c0c0c0c003";
const D: &str = "d0d0d0d0d0d0d0d0d0d0d0d0d0d0d004";
const E: &str = "e0e0e0e0e0e0e0e0e0e0e0e0e0e0e005";

/// Runs the lines on a fresh desk and gives what the last one prints.
fn last(lines: &[&str]) -> String {
    let mut desk = Desk::fresh(Edition::Current);
    let printed = lines.iter().zip(1..).filter_map(|(line, number)| run_line(&mut desk, line.as_bytes(), number));
    printed.last().expect("a line that prints")
}

/// The layout line of a body whose extents are state, offset and length; device and storage offset are 0.
fn layout(extents: &[(u32, u64, u64)]) -> String {
    let fields: String = extents.iter().map(|(state, offset, length)| format!("{:032x}{offset:016x}{length:016x}{:016x}{state:08x}", 0, 0)).collect();
    format!("layout {:08x}{fields}", extents.len())
}

/// The layoutreturn line of client 1 for file 7 after a restart, with one record that names one device and its status.
fn report(device: &str, status: u32) -> String {
    let body = format!("{:08x}{:016x}{:016x}{:032x}{:08x}{device}{status:08x}{:08x}{:08x}", 1, 0, u64::MAX, 0, 1, 38, 0);
    assert_eq!(body.len() / 2, 68);
    let request = format!("{:08x}{:08x}{:08x}{:08x}{:016x}{:016x}{:032x}{:08x}{body}", 0, 4, 3, 1, 0, u64::MAX, 0, 68);
    assert_eq!(request.len() / 2, 120);
    format!("layoutreturn 7 1 24 {request}")
}

/// The layoutreturn line of client 1 for file 7 with a stateid and a body.
fn returned(seqid: u32, other: &str, body: &str) -> String {
    let length = body.len() / 2;
    format!("layoutreturn 7 1 24 {:08x}{:08x}{:08x}{:08x}{:016x}{:016x}{seqid:08x}{other}{length:08x}{body}", 0, 4, 3, 1, 0, u64::MAX)
}

/// What is printed for a return that is accepted: the reply with this stateid.
fn raised(seqid: u32, other: &str) -> String {
    format!("0 {:08x}{:08x}{seqid:08x}{other}", 0, 1)
}

const X: &str = "515151515151515151515151";
const Y: &str = "515151515151515151515152";
/// A body without records, and one that ends inside its counts.
const EMPTY: &str = "0000000000000000";
const CUT: &str = "00000000";

fn registered() -> String {
    format!("register 7 {A}{B}")
}

#[test]
fn k1_four_zero_bytes() {
    assert_eq!(last(&["layout 00000000"]), "extents 0");
}

#[test]
fn k2_three_bytes() {
    assert_eq!(last(&["layout 000000"]), "refused 1 at 0");
}

#[test]
fn k3_count_1025_and_nothing_more() {
    assert_eq!(last(&["layout 00000401"]), "refused 2 at 0");
}

#[test]
fn k4_read_write_extents_that_touch() {
    assert_eq!(last(&[&layout(&[(0, 0, 10), (0, 10, 10)])]), "extents 2 0:10:0:0 10:10:0:0");
}

#[test]
fn k5_invalid_over_read() {
    assert_eq!(last(&[&layout(&[(1, 0, 100), (2, 0, 10)])]), "extents 2 0:100:0:1 0:10:0:2");
}

#[test]
fn k6_read_after_invalid() {
    assert_eq!(last(&[&layout(&[(2, 0, 10), (1, 0, 100)])]), "refused 6 at 1");
}

#[test]
fn k7_read_over_an_earlier_read() {
    assert_eq!(last(&[&layout(&[(1, 0, 100), (2, 0, 10), (1, 50, 10)])]), "refused 7 at 2");
}

#[test]
fn k8_hole_at_the_last_offset() {
    assert_eq!(last(&[&layout(&[(3, u64::MAX - 1, 1)])]), "extents 1 18446744073709551614:1:0:3");
}

#[test]
fn k9_hole_past_the_last_offset() {
    assert_eq!(last(&[&layout(&[(3, u64::MAX, 1)])]), "refused 5 at 0");
}

#[test]
fn k10_nobody_reclaims() {
    assert_eq!(last(&[&registered(), "open 7 1", "restart", "end", "resilver 1 1 lowest"]), "0 1 7:0");
}

#[test]
fn k11_the_client_reclaims() {
    assert_eq!(last(&[&registered(), "open 7 1", "restart", "reclaim 7 1", "end", "resilver 1 1 lowest"]), "0 0");
}

#[test]
fn k12_the_client_reports_a_mirror() {
    let history = [&registered(), "open 7 1", "restart", "reclaim 7 1", &report(A, 5), "end"];
    let and = |more: &[&str]| last(&[&history, more].concat());
    assert_eq!(and(&["resilver 1 1 lowest"]), "0 1 7:1");
    assert_eq!(and(&["offered 1 1 lowest"]), "0 0");
    assert_eq!(and(&["close 7 1", "offered 1 1 lowest"]), "0 1 7:1");
}

#[test]
fn k13_the_client_reports_an_unknown_device() {
    assert_eq!(last(&[&registered(), "open 7 1", "restart", "reclaim 7 1", &report(C, 5), "end", "resilver 1 1 lowest"]), "0 1 7:0");
}

/// Ticket 1: K10 to K13 in an old record. Its reports get 10025, and the list is as without them.
#[test]
fn an_old_record() {
    let history = ["fresh old", &registered(), "open 7 1", "restart"];
    let and = |more: &[&str]| last(&[&history, more].concat());
    assert_eq!(and(&["end", "resilver 1 1 lowest"]), "0 1 7:0");
    assert_eq!(and(&["reclaim 7 1", "end", "resilver 1 1 lowest"]), "0 0");
    for device in [A, C] {
        assert_eq!(and(&["reclaim 7 1", &report(device, 5)]), "10025 00002729");
        assert_eq!(and(&["reclaim 7 1", &report(device, 5), "end", "resilver 1 1 lowest"]), "0 0");
        assert_eq!(and(&["reclaim 7 1", "end", &report(device, 5)]), "10025 00002729");
    }
}

/// Ticket 11: the source is the lowest or the highest place not blamed, as asked, and the highest where nobody asks.
#[test]
fn the_source_by_direction() {
    let history = [&format!("register 7 {A}{B}{C}"), "open 7 1", "restart"];
    let and = |more: &[&str]| last(&[&history, more].concat());
    let reports = [report(A, 5), report(C, 5), report(B, 5)];
    let sources = [("0", "2"), ("1", "2"), ("1", "1"), ("255", "255")];
    for (blamed, (lowest, highest)) in sources.iter().enumerate() {
        let reported: Vec<&str> = reports[..blamed].iter().map(String::as_str).chain(["end"]).collect();
        for list in ["resilver", "offered"] {
            for (asked, source) in [(" lowest", lowest), (" highest", highest), ("", highest)] {
                assert_eq!(and(&[&reported[..], &[&format!("{list} 1 1{asked}")]].concat()), format!("0 1 7:{source}"));
            }
        }
    }
    assert_eq!(and(&["end", "resilver 1 1 first"]), "? 5");
    assert_eq!(and(&["end", "resilver 1 0 lowest"]), "28 0");
}

/// A statistics record of a device with these counts of bytes: short address parts and handle, latencies of ones.
fn statistic(device: &str, read: u64, written: u64) -> String {
    let fixed = format!("{:016x}{:016x}{:032x}{:016x}{read:016x}{:016x}{written:016x}{device}", 0, u64::MAX, 7, 3, 4);
    let parts = format!("{:08x}74637000{:08x}{:08x}01000000", 3, 0, 1);
    format!("{fixed}{parts}{}{:08x}", "11".repeat(140), 1)
}

/// The layoutreturn line of client 1 for file 7 after a restart, with this error list and these statistics records.
fn counted(errors: &str, records: &[String]) -> String {
    let body = format!("{errors}{:08x}{}", records.len(), records.concat());
    let request = format!("{:08x}{:08x}{:08x}{:08x}{:016x}{:016x}{:032x}{:08x}{body}", 0, 4, 3, 1, 0, u64::MAX, 0, body.len() / 2);
    format!("layoutreturn 7 1 24 {request}")
}

/// Ticket 3: sums by mirror place, another device's nowhere; cut at 2^64 - 1 and flagged only past it; none for an ignored report.
#[test]
fn statistics_of_a_report() {
    let history = [&registered(), "open 7 1", "restart"];
    let and = |more: &[&str]| last(&[&history, more].concat());
    let records = [statistic(B, 5, 6), statistic(A, 1, u64::MAX), statistic(C, 9, 9), statistic(B, u64::MAX, 0)];
    let accepted = format!("0 {:08x}{:08x}{:032x}", 0, 1, 0);
    assert_eq!(and(&[&counted("00000000", &records)]), accepted);
    assert_eq!(and(&[&counted("00000000", &records), "totals"]), "1:18446744073709551615 18446744073709551615!:6 0:0 0:0 0:0");
    assert_eq!(and(&[&counted("00000000", &records), "resilver 1 1 lowest"]), "0 0");
    let stranger = format!("{:08x}{:016x}{:016x}{:032x}{:08x}{C}{:08x}{:08x}", 1, 0, 0, 0, 1, 0, 38);
    assert_eq!(and(&[&counted(&stranger, &records), "totals"]), "0:0 0:0 0:0 0:0 0:0");
    assert_eq!(and(&[&counted("00000000", &records), "layoutreturn 7 1 23 -", "totals"]), "0:0 0:0 0:0 0:0 0:0");
    assert_eq!(and(&["totals"]), "0:0 0:0 0:0 0:0 0:0");
}

/// Ticket 7: the refusals of both calls, in their order.
#[test]
fn adding_and_removing_a_proxy() {
    let (add_a, add_c, add_d) = (format!("addproxy 7 {A}"), format!("addproxy 7 {C}"), format!("addproxy 7 {D}"));
    let and = |more: &[&str]| last(&[&[registered().as_str()], more].concat());
    let spare = format!("addproxy 7 {C}00");
    assert_eq!(and(&[&add_c]), "0");
    assert_eq!(and(&[&add_a]), "22");
    assert_eq!(and(&[&spare]), "22");
    assert_eq!(and(&["addproxy 7 -"]), "22");
    assert_eq!(and(&["addproxy 8 -"]), "70");
    assert_eq!(and(&[&add_c, &add_d]), "17");
    for there in [add_a.as_str(), &add_c, &spare, "addproxy 7 -"] {
        assert_eq!(and(&[&add_c, there]), "22");
    }
    assert_eq!(and(&["removeproxy 7"]), "2");
    assert_eq!(and(&["removeproxy 8"]), "70");
    assert_eq!(and(&[&add_c, "removeproxy 7"]), "0");
    assert_eq!(and(&[&add_c, "removeproxy 7", "removeproxy 7"]), "2");
    assert_eq!(and(&[&add_c, "removeproxy 7", &add_d]), "0");
    assert_eq!(and(&["restart", "addproxy 8 -"]), "10013");
    assert_eq!(and(&[&add_c, "restart", "removeproxy 8"]), "10013");
    assert_eq!(and(&[&add_c, "restart", "end", "removeproxy 7"]), "0");
    assert_eq!(and(&[&add_c, "forget 7", &registered(), "removeproxy 7"]), "2");
    assert_eq!(last(&[&format!("register 7 {A}{B}{C}{D}"), &format!("addproxy 7 {E}")]), "0");
    assert_eq!(last(&[&format!("register 7 {A}{B}{C}{D}{E}")]), "22");
}

/// Ticket 7: a proxy is named, blamed and counted like a mirror, at place 4, and is no source; removing it keeps the mark, repairing it keeps the proxy.
#[test]
fn a_proxy_in_a_report() {
    let history = [&registered(), &format!("addproxy 7 {C}"), "open 7 1", "restart", "reclaim 7 1"];
    let and = |more: &[&str]| last(&[&history, more].concat());
    let (clean, of_c) = (report(C, 0), report(C, 5));
    assert_eq!(and(&[&clean, "resilver 1 1"]), "0 0");
    for (asked, source) in [("lowest", "0"), ("highest", "1")] {
        assert_eq!(and(&[&of_c, &format!("resilver 1 1 {asked}")]), format!("0 1 7:{source}"));
        assert_eq!(and(&[&report(A, 5), &report(B, 5), &format!("resilver 1 1 {asked}")]), "0 1 7:255");
    }
    assert_eq!(and(&[&of_c, "end", "close 7 1", "removeproxy 7", "resilver 1 1 lowest"]), "0 1 7:0");
    assert_eq!(and(&[&of_c, "end", "close 7 1", "repaired 7", "resilver 1 1"]), "0 0");
    assert_eq!(and(&[&of_c, "end", "close 7 1", "repaired 7", "removeproxy 7"]), "0");
    assert_eq!(and(&[&report(D, 0), "resilver 1 1 lowest"]), "0 1 7:0");
    let records = [statistic(C, 5, 6), statistic(A, 1, 2), statistic(D, 9, 9), statistic(C, u64::MAX, 1)];
    assert_eq!(and(&[&counted("00000000", &records), "totals"]), "1:2 0:0 0:0 0:0 18446744073709551615!:7");
}

/// Ticket 8: the lengths of the two lists, in grace and out of it.
#[test]
fn counts_of_the_lists() {
    let lost = [&registered(), "open 7 1", "restart", "end"];
    let and = |more: &[&str]| last(&[&lost, more, &["counts"]].concat());
    assert_eq!(last(&["counts"]), "0 0");
    assert_eq!(last(&[&registered(), "open 7 1", "restart", "counts"]), "0 0");
    assert_eq!(and(&[]), "1 1");
    assert_eq!(and(&["open 7 2"]), "1 0");
    assert_eq!(and(&["open 7 2", "open 7 3", "close 7 2"]), "1 0");
    assert_eq!(and(&["open 7 2", "open 7 3", "close 7 2", "close 7 3"]), "1 1");
    assert_eq!(and(&["restart"]), "1 1");
    assert_eq!(and(&["forget 7"]), "1 1");
    assert_eq!(and(&["repaired 7"]), "0 0");
    assert_eq!(and(&["repaired 7", "forget 7"]), "0 0");
    let reported = [&registered(), "open 7 1", "restart", &report(A, 5), &report(C, 5)];
    assert_eq!(last(&[&reported[..], &["counts"]].concat()), "1 0");
    assert_eq!(last(&[&reported[..], &["end", "counts"]].concat()), "1 1");
    assert_eq!(last(&["counts 1"]), "? 1");
}

/// Ticket 13: each accepted return raises the seqid; an older one gets 10024, a newer one or another's 10025; 0 is the latest.
#[test]
fn ordinary_returns() {
    let history = [&registered(), "open 7 1", "open 7 2", &format!("stateid 7 1 {X}")];
    let and = |more: &[&str]| last(&[&history[..], more].concat());
    let of = |seqid: u32| returned(seqid, X, EMPTY);
    assert_eq!(and(&[&of(1)]), raised(2, X));
    assert_eq!(and(&[&of(0), &of(0)]), raised(3, X));
    assert_eq!(and(&[&of(1), &of(1)]), "10024 00002728");
    assert_eq!(and(&[&of(2)]), "10025 00002729");
    assert_eq!(and(&[&of(u32::MAX)]), "10024 00002728");
    assert_eq!(and(&[&of(0x8000_0002)]), "10024 00002728");
    assert_eq!(and(&[&of(0x8000_0001)]), "10025 00002729");
    assert_eq!(and(&[&returned(1, Y, EMPTY)]), "10025 00002729");
    assert_eq!(and(&[&returned(1, X, CUT)]), "10036 00002734");
    assert_eq!(and(&[&returned(1, X, CUT), &of(1)]), raised(2, X));
    assert_eq!(and(&[&of(1).replace("layoutreturn 7 1", "layoutreturn 7 2")]), "10025 00002729");
    assert_eq!(and(&[&of(1).replace("layoutreturn 7", "layoutreturn 8")]), "70 00000046");
    for end in [&["close 7 1", "open 7 1"][..], &["restart", "reclaim 7 1", "end"]] {
        assert_eq!(and(&[end, &[&of(0)]].concat()), "10025 00002729");
        assert_eq!(and(&[end, &[&format!("stateid 7 1 {X}"), &of(1)]].concat()), raised(2, X));
    }
    assert_eq!(and(&["restart", &of(1)]), "10013 0000271d");
}

/// Ticket 13: a report out of grace marks and blames; in an old record it is read for form only.
#[test]
fn ordinary_reports() {
    let reported = report(A, 5).replace(&format!("{:016x}{:032x}{:08x}", u64::MAX, 0, 68), &format!("{:016x}{:08x}{X}{:08x}", u64::MAX, 0, 68));
    let set_up = format!("stateid 7 1 {X}");
    let history = [&registered(), "open 7 1", &set_up, &reported];
    assert_eq!(last(&history), raised(2, X));
    assert_eq!(last(&[&history[..], &["resilver 1 1 lowest"]].concat()), "0 1 7:1");
    assert_eq!(last(&[&["fresh old"], &history[..]].concat()), raised(2, X));
    assert_eq!(last(&[&["fresh old"], &history[..], &["resilver 1 1 lowest"]].concat()), "0 0");
}

/// Ticket 13: the refusals of a set-up.
#[test]
fn set_ups() {
    let history = [&registered(), "open 7 1", "open 7 2"];
    let and = |more: &[&str]| last(&[&history[..], more].concat());
    let (x, of_two) = (format!("stateid 7 1 {X}"), format!("stateid 7 2 {X}"));
    assert_eq!(and(&["restart", &x]), "10013");
    assert_eq!(and(&[&format!("stateid 8 1 {X}")]), "70");
    assert_eq!(and(&[&format!("stateid 7 3 {X}")]), "10025");
    assert_eq!(and(&[&x]), "0");
    assert_eq!(and(&[&x, "stateid 7 1 -"]), "17");
    assert_eq!(and(&[&x, &of_two]), "22");
    assert_eq!(and(&[&x, "close 7 1", &of_two]), "0");
    assert_eq!(and(&["stateid 7 1 -"]), "22");
    assert_eq!(and(&["stateid 7 1 000000000000000000000000"]), "22");
    assert_eq!(and(&["stateid 7 1 ffffffffffffffffffffffff"]), "22");
}

/// Ticket 2: one client's word does not stand for another's, and it keeps its own intent.
#[test]
fn one_of_two_clients_comes_back() {
    let history = [&registered(), "open 7 1", "open 7 2", "restart", "reclaim 7 1", "end"];
    let and = |more: &[&str]| last(&[&history, more].concat());
    assert_eq!(and(&["resilver 1 1 lowest"]), "0 1 7:0");
    assert_eq!(and(&["offered 1 1 lowest"]), "0 0");
    assert_eq!(and(&["close 7 2"]), "10025");
    assert_eq!(and(&["close 7 1", "offered 1 1 lowest"]), "0 1 7:0");
}

/// Ticket 2: an intent reclaimed and then closed no longer counts, whoever else reclaims.
#[test]
fn reclaimed_and_closed() {
    let history = [&registered(), "open 7 1", "open 7 2", "restart", "reclaim 7 1", "close 7 1"];
    let and = |more: &[&str]| last(&[&history, more].concat());
    assert_eq!(and(&["end", "resilver 1 1 lowest"]), "0 1 7:0");
    assert_eq!(and(&["reclaim 7 2", "end", "resilver 1 1 lowest"]), "0 0");
}

#[test]
fn k14_two_nodes_start() {
    assert_eq!(last(&["join 0", "join 1", "start 0", "start 1", "epochs"]), "2 1 00000003 00000003 00000003");
}

#[test]
fn k15_two_nodes_finish() {
    assert_eq!(last(&["join 0", "join 1", "start 0", "start 1", "finish 0", "epochs"]), "2 1 00000003 00000002 00000003");
    assert_eq!(last(&["join 0", "join 1", "start 0", "start 1", "finish 0", "finish 1", "epochs"]), "2 0 00000003 00000000 00000003");
}
