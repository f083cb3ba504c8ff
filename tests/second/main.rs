//! The second program: speaks the lines of replay (man/stellcircle-replay.1) and prints the same, but is written from the paper alone, over maps and sets.
//! In this order: refusals; the commands; what they print; one line; main. `words` reads words, `layout`, `merge`, `commit`, `layoutreturn`, `ledger` and `epochs` hold the rules, `examples` the marked ones.

mod commit;
mod epochs;
mod layout;
mod layoutreturn;
mod ledger;
mod merge;
mod words;

#[cfg(test)]
mod examples;

use epochs::Epochs;
use layout::{list, Extent, Kind};
use layoutreturn::{Other, Stateid};
use ledger::{Edition, Ledger, Totals};
use std::io::{self, BufRead, Write};
use words::{bytes, direction, node, number, room, split, MAX_BODY, MAX_LINE, MAX_LIST, MAX_REQUEST};

/// A refusal with its number, where it applies.
pub fn refuse_if(refused: bool, number: u32) -> Result<(), u32> {
    if refused {
        Err(number)
    } else {
        Ok(())
    }
}

/// What the calls run on.
struct Desk {
    ledger: Ledger,
    epochs: Epochs,
    /// Of the latest LAYOUTRETURN.
    totals: Totals,
}

impl Desk {
    fn fresh(edition: Edition) -> Desk {
        Desk { ledger: Ledger::fresh(edition), epochs: Epochs::fresh(), totals: Totals::default() }
    }

    /// Runs one command and gives the line that it prints; `None` where the words can't be read, and then nothing changed.
    fn run(&mut self, words: &[&[u8]]) -> Option<String> {
        let name = std::str::from_utf8(words[0]).ok()?;
        match (name, &words[1..]) {
            ("register", [f, m]) => {
                let (file, mirrors) = (number(f)?, bytes(m, MAX_REQUEST)?);
                Some(answered(self.ledger.register(file, &mirrors)))
            }
            ("open", [f, c]) => Some(answered(self.ledger.open(number(f)?, number(c)?))),
            ("reclaim", [f, c]) => Some(answered(self.ledger.reclaim(number(f)?, number(c)?))),
            ("close", [f, c]) => Some(answered(self.ledger.close(number(f)?, number(c)?))),
            ("repaired", [f]) => Some(answered(self.ledger.repaired(number(f)?))),
            ("forget", [f]) => Some(answered(self.ledger.forget(number(f)?))),
            ("addproxy", [f, d]) => Some(answered(self.ledger.add_proxy(number(f)?, &bytes(d, MAX_REQUEST)?))),
            ("removeproxy", [f]) => Some(answered(self.ledger.remove_proxy(number(f)?))),
            ("stateid", [f, c, o]) => {
                let (file, client, other) = (number(f)?, number(c)?, bytes(o, MAX_REQUEST)?);
                Some(answered(self.ledger.set_up_stateid(file, client, &other)))
            }
            ("end", []) => Some(answered(self.ledger.end_of_grace())),
            ("restart", []) => Some(answered(self.ledger.restart())),
            ("layoutreturn", [f, c, r, q]) => {
                let (file, client, room, request) = (number(f)?, number(c)?, room(r)?, bytes(q, MAX_REQUEST)?);
                let call = self.ledger.layoutreturn(file, client, room, &request);
                self.totals = call.as_ref().map_or(Totals::default(), |(_, totals)| *totals);
                Some(said(call))
            }
            ("request", [q]) => Some(asked(&bytes(q, MAX_REQUEST)?)),
            ("totals", []) => Some(summed(&self.totals)),
            ("resilver", [f, s, asked @ ..]) => Some(listed(self.ledger.resilver(direction(asked)?), room(f)?, room(s)?)),
            ("offered", [f, s, asked @ ..]) => Some(listed(self.ledger.offered(direction(asked)?), room(f)?, room(s)?)),
            ("counts", []) => Some(counted(self.ledger.counts())),
            ("layout", [b]) => Some(laid_out(Kind::Scsi, &bytes(b, MAX_BODY)?)),
            ("rdma", [b]) => Some(laid_out(Kind::Rdma, &bytes(b, MAX_BODY)?)),
            ("write", [r, e]) => Some(written(Kind::Scsi, room(r)?, &list(Kind::Scsi, &bytes(e, MAX_LIST)?)?)),
            ("merge", [r, e]) => Some(put(merge::merge(&list(Kind::Scsi, &bytes(e, MAX_LIST)?)?, room(r)?))),
            ("commit", [b, r, c, e]) => {
                let (block, room, commits, extents) = (number(b)?, room(r)?, bytes(c, MAX_BODY)?, bytes(e, MAX_LIST)?);
                Some(put(commit::commit(&list(Kind::Scsi, &extents)?, block, &commits, room)))
            }
            ("rdmawrite", [r, e]) => Some(written(Kind::Rdma, room(r)?, &list(Kind::Rdma, &bytes(e, MAX_LIST)?)?)),
            ("fresh", []) => {
                *self = Desk::fresh(Edition::Current);
                Some("0".to_string())
            }
            ("fresh", [b"old"]) => {
                *self = Desk::fresh(Edition::Old);
                Some("0".to_string())
            }
            _ => self.run_on_epochs(name, &words[1..]),
        }
    }

    fn run_on_epochs(&mut self, name: &str, arguments: &[&[u8]]) -> Option<String> {
        let e = &mut self.epochs;
        match (name, arguments) {
            ("join", [n]) => Some(answered(e.join(node(n)?))),
            ("leave", [n]) => Some(answered(e.leave(node(n)?))),
            ("start", [n]) => Some(answered(e.start(node(n)?))),
            ("enforce", [n]) => Some(answered(e.enforce(node(n)?))),
            ("finish", [n]) => Some(answered(e.finish(node(n)?))),
            ("stop", [n]) => Some(answered(e.stop_enforcing(node(n)?))),
            ("may", [n]) => Some(match e.may_reclaim(node(n)?) {
                Ok(true) => "yes".to_string(),
                Ok(false) => "no".to_string(),
                Err(number) => number.to_string(),
            }),
            ("epochs", []) => Some(e.to_string()),
            _ => None,
        }
    }
}

/// The line for a call that is accepted or refused.
fn answered(call: Result<(), u32>) -> String {
    call.err().unwrap_or(0).to_string()
}

/// The line for a LAYOUTRETURN: the number and the bytes of the reply that were written, for 0 with a stateid.
fn said(call: Result<(Stateid, Totals), Other>) -> String {
    match call {
        Ok((stateid, _)) => {
            let other: String = stateid.other.iter().map(|byte| format!("{byte:02x}")).collect();
            format!("0 {:08x}{:08x}{:08x}{other}", 0, 1, stateid.seqid)
        }
        Err(Other::Status(status)) => format!("{status} {status:08x}"),
        Err(Other::NoRoom) => "28".to_string(),
        Err(Other::HandedOn) => "handed on".to_string(),
    }
}

/// The line for a request: what it is, and where the body of a file's return lies, behind 52 bytes.
fn asked(request: &[u8]) -> String {
    match layoutreturn::check(request) {
        Ok((kind, _, body)) => format!("{} 52 {}", kind.name(), body.len()),
        Err(Other::Status(status)) => format!("refused {status}"),
        Err(_) => "handed on".to_string(),
    }
}

/// The line for totals: a number past 2^64 - 1 stays there and is flagged.
fn summed(totals: &Totals) -> String {
    let most = u128::from(u64::MAX);
    let one = |sum: u128| format!("{}{}", sum.min(most), if sum > most { "!" } else { "" });
    totals.map(|(read, written)| format!("{}:{}", one(read), one(written))).join(" ")
}

/// The line for a listing into lent slices of so many places.
fn listed(list: Vec<(u64, u8)>, files: usize, sources: usize) -> String {
    if list.len() > files || list.len() > sources {
        return "28 0".to_string();
    }
    let entries: String = list.iter().map(|(file, source)| format!(" {file}:{source}")).collect();
    format!("0 {}{entries}", list.len())
}

/// The line for the two counts.
fn counted((waiting, offered): (usize, usize)) -> String {
    format!("{waiting} {offered}")
}

/// The line for a layout body of this kind.
fn laid_out(kind: Kind, body: &[u8]) -> String {
    match layout::read(kind, body) {
        Err((number, place)) => format!("refused {number} at {place}"),
        Ok(extents) => {
            let handle = |e: &Extent| if kind == Kind::Rdma { format!(":{}", e.handle) } else { String::new() };
            let entries: String = extents.iter().map(|e| format!(" {}:{}:{}:{}{}", e.offset, e.length, e.storage, e.state, handle(e))).collect();
            format!("extents {}{entries}", extents.len())
        }
    }
}

/// The line for a list that is written into so many bytes.
fn written(kind: Kind, room: usize, extents: &[Extent]) -> String {
    put(layout::write(kind, room, extents))
}

/// The line for a body that is written, or refused.
fn put(body: Result<Vec<u8>, layout::Refusal>) -> String {
    match body {
        Err((number, place)) => format!("refused {number} at {place}"),
        Ok(body) => format!("0 {}", body.iter().map(|b| format!("{b:02x}")).collect::<String>()),
    }
}

/// What one line, without its newline, prints; `None` for a line that is skipped.
fn run_line(desk: &mut Desk, line: &[u8], line_number: u64) -> Option<String> {
    let unread = format!("? {line_number}");
    if line.len() > MAX_LINE {
        return Some(unread);
    }
    let words = split(line);
    if words.is_empty() || words[0][0] == b'#' {
        return None;
    }
    Some(desk.run(&words).unwrap_or(unread))
}

fn main() -> io::Result<()> {
    let (mut input, mut output) = (io::stdin().lock(), io::BufWriter::new(io::stdout().lock()));
    let (mut desk, mut line, mut line_number) = (Desk::fresh(Edition::Current), Vec::new(), 0);
    while input.read_until(b'\n', &mut line)? > 0 {
        line_number += 1;
        let text = line.strip_suffix(b"\n").unwrap_or(&line);
        if let Some(answer) = run_line(&mut desk, text, line_number) {
            writeln!(output, "{answer}")?;
        }
        line.clear();
    }
    output.flush()
}
