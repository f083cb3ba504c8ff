//! Lines that can't be read, or only just can: other blanks and digits for the same words, wrong words, and lengths at the limits.

use crate::random::Random;

/// The same words with other blanks, more zeros or other letters for the hex digits: a line that reads the same.
pub fn dressed(r: &mut Random, line: &str) -> Vec<u8> {
    let blank = r.pick(&[" ", "  ", "\t", " \t ", "\r"]);
    let words: Vec<String> = line.split(' ').enumerate().map(|(i, word)| if i == 0 { word.to_string() } else { other_digits(r, word) }).collect();
    let start = r.pick(&["", " ", "\t"]);
    let end = r.pick(&["", " ", "\r", " \r"]);
    format!("{start}{}{end}", words.join(blank)).into_bytes()
}

fn other_digits(r: &mut Random, word: &str) -> String {
    let number = word.len() <= 20 && word.bytes().all(|b| b.is_ascii_digit()) && word.len() % 2 == 1;
    if number && r.percent(30) {
        return format!("00000000000000000000{word}");
    }
    if word.bytes().all(|b| b.is_ascii_hexdigit()) && r.percent(30) {
        word.to_uppercase()
    } else {
        word.to_string()
    }
}

/// A line like this one that can't be read.
pub fn spoilt(r: &mut Random, line: &str) -> Vec<u8> {
    let mut words: Vec<String> = line.split(' ').map(str::to_string).collect();
    let last = words.len() - 1;
    match r.below(8) {
        0 => words.push(r.pick(&["0", "-", "#", "1", "Lowest"]).to_string()),
        1 => words[0] = r.pick(&["opens", "Open", "ope", "?", "-", "layoutreturn#", "\u{feff}open"]).to_string(),
        2 => words[0].push(r.pick(&['\0', '\u{b}', ',', '1'])),
        3 if last > 0 && !may_lack(&words[last]) => {
            words.pop();
        }
        4..=6 if last > 0 => words[1 + r.size(last)] = bad_word(r),
        _ => words.push("#".to_string()),
    }
    words.join(" ").into_bytes()
}

/// A word without which the line can be read too.
fn may_lack(word: &str) -> bool {
    ["old", "lowest", "highest"].contains(&word)
}

/// A word that is neither a number nor bytes, an edition or a direction.
fn bad_word(r: &mut Random) -> String {
    let numbers = ["18446744073709551616x", "99999999999999999999999g", "-1", "+1", "0x1", "1.", "--", "0g", "\u{e9}\u{e9}", "'", "\0\0", "1\u{b}"];
    let directions = ["Lowest", "highes", "lowest,"];
    r.pick(&[&numbers[..], &directions].concat()).to_string()
}

/// Lines at the limits of numbers, rooms, bytes and length: each as the last that can be read, and as the first that can't.
pub fn at_the_limits() -> Vec<String> {
    let zeros = |bytes: usize| "00".repeat(bytes);
    let both = |over: usize| {
        [
            format!("open 1844674407370955161{} 1", 5 + over),
            format!("close 1 1844674407370955161{}", 5 + over),
            format!("join 429496729{}", 5 + over),
            format!("may 429496729{}", 5 + over),
            format!("resilver 6553{} 65536", 6 + over),
            format!("offered 64 6553{}", 6 + over),
            format!("resilver 6553{} 65536 lowest", 6 + over),
            format!("offered 64 6553{} highest", 6 + over),
            format!("layoutreturn 7 1 6553{} 00", 6 + over),
            format!("layoutreturn 7 1 24 {}", zeros(16_384 + over)),
            format!("request {}", zeros(16_384 + over)),
            format!("register 7 {}", zeros(16_384 + over)),
            format!("addproxy 7 {}", zeros(16_384 + over)),
            format!("addproxy 1844674407370955161{} -", 5 + over),
            format!("removeproxy 1844674407370955161{}", 5 + over),
            format!("stateid 7 1 {}", zeros(16_384 + over)),
            format!("stateid 1844674407370955161{} 1 -", 5 + over),
            format!("stateid 7 1844674407370955161{} -", 5 + over),
            format!("layout {}", zeros(65_536 + over)),
            format!("rdma {}", zeros(65_536 + over)),
            format!("write 6553{} -", 6 + over),
            format!("write 0 {}", zeros(44 * (4_468 + over))),
            format!("rdmawrite 0 {}", zeros(48 * (4_096 + over))),
            format!("write 48 {}", zeros(44 + over)),
            format!("rdmawrite 52 {}", zeros(48 + over)),
            format!("merge 6553{} -", 6 + over),
            format!("merge 65536 {}", zeros(44 + over)),
            format!("commit 1844674407370955161{} 4 00000000 -", 5 + over),
            format!("commit 1 6553{} 00000000 -", 6 + over),
            format!("commit 1 4 {} -", zeros(65_536 + over)),
            format!("commit 1 48 00000000 {}", zeros(44 + over)),
            format!("restart{}", " ".repeat(524_288 - 7 + over)),
            format!("#{}", "x".repeat(524_287 + over)),
            " ".repeat(524_288 + over),
            format!("layout {}{}", zeros(2), "0".repeat(over)),
        ]
    };
    [both(0), both(1)].concat()
}
