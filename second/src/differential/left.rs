//! What a call leaves: its numbers and, for each area, the bytes it changed and a digest of all.

use super::calls::Finding;
use super::compare::{parts, Answer, Call, Lent, NAMES, PARTS};
use crate::link::{Outcome, Shown};
use std::io::{self, Read};
use std::ops::Range;

/// What stands in an out number before the call: one that isn't set is seen.
const UNSET: u64 = 0x5555_5555_5555_5555;

/// How many out numbers are sent back for each call.
const OUT: usize = 4;

/// No area is as long.
const LONGEST: usize = 1 << 20;

#[derive(Clone, Debug, PartialEq, Eq)]
pub struct Left {
    /// The number that the call returns.
    pub number: u16,
    /// The reply's length and what the sum test said; what the sum test said, message, start and count;
    /// or start, length and drop; the others unset.
    pub out: [u64; OUT],
    pub used: u64,
    /// The kept count of effective points.
    pub effective: u64,
    pub areas: [AreaLeft; PARTS],
}

#[derive(Clone, Debug, PartialEq, Eq)]
pub struct AreaLeft {
    /// Nothing was written on either side of the area.
    pub guards_whole: bool,
    /// The bytes from the first changed one to the last, and where they begin; or 0 and none.
    pub at: usize,
    pub bytes: Vec<u8>,
    pub digest: u64,
}

impl Left {
    /// What a call leaves that found `before`, left `after` and answered so.
    pub fn of(call: &Call, before: &Lent, after: &Lent, answer: Answer) -> Left {
        let (number, out) = match answer {
            Answer::Answered(Outcome { number, reply_length, sum }) => {
                (number, [reply_length as u64, u64::from(sum), UNSET, UNSET])
            }
            Answer::Checked(Shown { number, message, start, count, sum }) => {
                (number, [u64::from(sum), u64::from(message), start as u64, count as u64])
            }
            Answer::SteppedBack(number) => (number, [UNSET; OUT]),
            Answer::Received(Finding { code, start, length, drop }) => {
                (u16::from(code), [start as u64, length as u64, drop as u64, UNSET])
            }
        };
        let (old, new) = (parts(call, before), parts(call, after));
        let areas = std::array::from_fn(|part| AreaLeft::of(old[part], new[part]));
        let (used, effective) = (after.board.used as u64, after.board.effective as u64);
        Left { number, out, used, effective, areas }
    }

    /// The player's next one.
    pub fn read(from: &mut impl Read) -> io::Result<Left> {
        let number = read_number(from, 2)? as u16;
        let mut out = [0; OUT];
        for number in &mut out {
            *number = read_number(from, 8)?;
        }
        let used = read_number(from, 8)?;
        let effective = read_number(from, 8)?;
        let mut areas = Vec::new();
        for _ in 0..PARTS {
            areas.push(AreaLeft::read(from)?);
        }
        let areas = areas.try_into().map_err(|_| io::Error::other("areas"))?;
        Ok(Left { number, out, used, effective, areas })
    }

    /// Says where this is not what was expected of a call that found `before`.
    pub fn differs(&self, expected: &Left, before: [&[u8]; PARTS]) -> String {
        let Left { number, out, used, effective, .. } = expected;
        if self.number != *number {
            return format!("number is {}, expected {number}", self.number);
        }
        if self.out != *out {
            return format!("out numbers are {:?}, expected {out:?}", self.out);
        }
        if self.used != *used {
            return format!("used length is {}, expected {used}", self.used);
        }
        if self.effective != *effective {
            return format!("count is {}, expected {effective}", self.effective);
        }
        for part in 0..PARTS {
            let (given, expected) = (&self.areas[part], &expected.areas[part]);
            if given != expected {
                return format!("{}: {}", NAMES[part], given.differs(expected, before[part]));
            }
        }
        "nothing".to_string()
    }
}

impl AreaLeft {
    fn of(before: &[u8], after: &[u8]) -> AreaLeft {
        let changed = changed(before, after).unwrap_or(0..0);
        AreaLeft {
            guards_whole: true,
            at: changed.start,
            bytes: after[changed].to_vec(),
            digest: digest(after),
        }
    }

    fn read(from: &mut impl Read) -> io::Result<AreaLeft> {
        let guards_whole = read_number(from, 1)? == 1;
        let at = read_number(from, 4)? as usize;
        let count = read_number(from, 4)? as usize;
        if count > LONGEST {
            return Err(io::Error::other("too many changed bytes"));
        }
        let mut bytes = vec![0; count];
        from.read_exact(&mut bytes)?;
        Ok(AreaLeft { guards_whole, at, bytes, digest: read_number(from, 8)? })
    }

    /// Changes an area as the call did; bytes that would stand outside it are left out.
    pub fn apply(&self, area: &mut [u8]) {
        if let Some(place) = area.get_mut(self.at..self.at + self.bytes.len()) {
            place.copy_from_slice(&self.bytes);
        }
    }

    fn differs(&self, expected: &AreaLeft, before: &[u8]) -> String {
        let (mut given, mut right) = (before.to_vec(), before.to_vec());
        self.apply(&mut given);
        expected.apply(&mut right);
        match (0..before.len()).find(|&at| given[at] != right[at]) {
            Some(at) => format!("byte {at} is {:02X}, expected {:02X}", given[at], right[at]),
            None if !self.guards_whole => "written outside the lent bytes".to_string(),
            None => format!(
                "digest is {:016X}, expected {:016X}: the player held other bytes",
                self.digest, expected.digest
            ),
        }
    }
}

/// From the first byte that changed to the last; both have one length.
pub fn changed(before: &[u8], after: &[u8]) -> Option<Range<usize>> {
    if before == after {
        return None;
    }
    let first = before.iter().zip(after).position(|(old, new)| old != new)?;
    let last = before.iter().zip(after).rposition(|(old, new)| old != new)?;
    Some(first..last + 1)
}

/// The player's digest: eight bytes at a time, low byte first, the last ones filled up with 00.
fn digest(bytes: &[u8]) -> u64 {
    let mix = |h: u64, word: u64| {
        let h = (h ^ word).wrapping_mul(0x9E37_79B9_7F4A_7C15);
        h ^ (h >> 32)
    };
    let (words, rest) = bytes.as_chunks::<8>();
    let h = words.iter().fold(bytes.len() as u64, |h, word| mix(h, u64::from_le_bytes(*word)));
    if rest.is_empty() {
        return h;
    }
    let mut word = [0; 8];
    word[..rest.len()].copy_from_slice(rest);
    mix(h, u64::from_le_bytes(word))
}

/// The next number of `width` bytes, high byte first.
fn read_number(from: &mut impl Read, width: usize) -> io::Result<u64> {
    let mut bytes = [0; 8];
    from.read_exact(&mut bytes[8 - width..])?;
    Ok(u64::from_be_bytes(bytes))
}

#[cfg(test)]
mod tests {
    use super::*;

    #[test]
    fn changed_is_from_the_first_to_the_last() {
        assert_eq!(changed(&[], &[]), None);
        assert_eq!(changed(&[1, 2, 3], &[1, 2, 3]), None);
        assert_eq!(changed(&[1, 2, 3], &[1, 0, 3]), Some(1..2));
        assert_eq!(changed(&[1, 2, 3, 4], &[0, 2, 3, 0]), Some(0..4));
    }

    #[test]
    fn digests_see_each_byte_and_the_length() {
        let bytes: Vec<u8> = (0..21).collect();
        for at in 0..bytes.len() {
            let mut other = bytes.clone();
            other[at] ^= 0x80;
            assert_ne!(digest(&bytes), digest(&other), "byte {at}");
        }
        assert_ne!(digest(&[0; 8]), digest(&[0; 9]));
        assert_eq!(digest(&[]), 0);
    }

    #[test]
    fn an_area_says_its_first_difference() {
        let before = [1, 2, 3];
        let expected = AreaLeft::of(&before, &[1, 5, 4]);
        let given = |after: &[u8]| AreaLeft::of(&before, after).differs(&expected, &before);
        assert_eq!(given(&before), "byte 1 is 02, expected 05");
        assert_eq!(given(&[1, 5, 0]), "byte 2 is 00, expected 04");
        let outside = AreaLeft { guards_whole: false, ..expected.clone() };
        assert_eq!(outside.differs(&expected, &before), "written outside the lent bytes");
        let held = AreaLeft { digest: 0, ..expected.clone() };
        assert!(held.differs(&expected, &before).ends_with("the player held other bytes"));
    }
}
