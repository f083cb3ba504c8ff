//! gen SEED CALLS: writes a script of at least CALLS random calls for replay, the same for the same seed.
//! gen pairs SEED PAIRS: writes PAIRS histories for Ticket 14, each with the comment `# once more` where one more restart may go.
//! A script is a row of campaigns, each a short story that aims at an edge: see `campaigns`. `requests` makes LAYOUTRETURN requests,
//! `bodies` makes layout bodies, `merges` lists of extents to be merged, `commits` LAYOUTCOMMITs, `stateids` what stateids calls name, `lines` makes lines that can't or only just can be read, `random` has the numbers and choices.

mod bodies;
mod campaigns;
mod commits;
mod lines;
mod merges;
mod random;
mod requests;
mod stateids;

use campaigns::Campaigns;
use std::io::{self, BufWriter};

fn main() -> io::Result<()> {
    let words: Vec<String> = std::env::args().skip(1).collect();
    let (pairs, numbers) = match words.first().map(String::as_str) {
        Some("pairs") => (true, &words[1..]),
        _ => (false, &words[..]),
    };
    let (seed, count) = match numbers.iter().map(|word| word.parse()).collect::<Vec<_>>()[..] {
        [Ok(seed), Ok(count)] => (seed, count),
        _ => {
            eprintln!("usage: gen SEED CALLS, gen pairs SEED PAIRS");
            std::process::exit(2)
        }
    };
    let campaigns = Campaigns::new(seed, BufWriter::new(io::stdout().lock()));
    if pairs {
        campaigns.run_pairs(count)
    } else {
        campaigns.run(count)
    }
}
