//! The words of a line: how a line is split, and how numbers, bytes and directions are read from words. The rules are those of man/stellcircle-replay.1.

use crate::ledger::Direction;

/// Bytes of a LAYOUTRETURN request, a mirror list, a proxy's device or a stateid's other.
pub const MAX_REQUEST: usize = 16_384;
/// Bytes of a layout body or a commit list.
pub const MAX_BODY: usize = 65_536;
/// Bytes of extents to write.
pub const MAX_LIST: usize = 196_608;
/// Bytes of a line, the newline not counted.
pub const MAX_LINE: usize = 524_288;
/// Places of a lent reply or list.
const MAX_ROOM: u64 = 65_536;

/// Words stand apart by any number of spaces, tabs and carriage returns.
pub fn split(line: &[u8]) -> Vec<&[u8]> {
    line.split(|b| b" \t\r".contains(b)).filter(|word| !word.is_empty()).collect()
}

/// A number of at most 64 bits.
pub fn number(word: &[u8]) -> Option<u64> {
    if word.is_empty() || !word.iter().all(u8::is_ascii_digit) {
        return None;
    }
    std::str::from_utf8(word).ok()?.parse().ok()
}

/// A node's number: at most 32 bits.
pub fn node(word: &[u8]) -> Option<u32> {
    number(word)?.try_into().ok()
}

/// How many places are lent.
pub fn room(word: &[u8]) -> Option<usize> {
    number(word).filter(|places| *places <= MAX_ROOM)?.try_into().ok()
}

/// The direction that a listing's last words ask for; the highest if there are none.
pub fn direction(asked: &[&[u8]]) -> Option<Direction> {
    match asked {
        [] | [b"highest"] => Some(Direction::Highest),
        [b"lowest"] => Some(Direction::Lowest),
        _ => None,
    }
}

/// Bytes in hex, at most so many; `-` for none.
pub fn bytes(word: &[u8], most: usize) -> Option<Vec<u8>> {
    if word == b"-" {
        return Some(Vec::new());
    }
    let pairs = word.chunks_exact(2);
    if !pairs.remainder().is_empty() || pairs.len() > most {
        return None;
    }
    pairs.map(|pair| Some((digit(pair[0])? << 4) | digit(pair[1])?)).collect()
}

fn digit(letter: u8) -> Option<u8> {
    char::from(letter).to_digit(16)?.try_into().ok()
}

#[cfg(test)]
mod tests {
    use super::*;

    #[test]
    fn lines_split_at_any_blanks() {
        assert_eq!(split(b" \topen  7\t1 \r"), [b"open".as_slice(), b"7", b"1"]);
        assert!(split(b" \t\r").is_empty());
    }

    #[test]
    fn numbers_have_digits_only_and_fit() {
        assert_eq!(number(b"18446744073709551615"), Some(u64::MAX));
        assert_eq!(number(b"000000000000000000000000000000007"), Some(7));
        for bad in [b"18446744073709551616".as_slice(), b"+1", b"-1", b"", b"0x1", b"1\0"] {
            assert_eq!(number(bad), None);
        }
        assert_eq!(node(b"4294967295"), Some(u32::MAX));
        assert_eq!(node(b"4294967296"), None);
        assert_eq!(room(b"65536"), Some(65_536));
        assert_eq!(room(b"65537"), None);
    }

    #[test]
    fn bytes_are_pairs_of_hex_digits() {
        assert_eq!(bytes(b"-", 0), Some(vec![]));
        assert_eq!(bytes(b"aF09", 2), Some(vec![0xaf, 0x09]));
        for bad in [b"a".as_slice(), b"ag", b"--", b"+1", b"aF0900"] {
            assert_eq!(bytes(bad, 2), None);
        }
    }
}
