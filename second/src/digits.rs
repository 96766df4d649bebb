//! Hexadecimal digits as they stand in a frame (document 01, "Frame"; document 02, l). What is sent is
//! turned into capitals by `capitals`; all that reads or writes fields knows capitals alone.

/// Most digits a field of document 000 has: a position's eight.
const WIDEST: usize = 8;

const CAPITALS: &[u8; 16] = b"0123456789ABCDEF";

/// Which letters are digits; the cabinet release names it (document 02, l).
#[derive(Clone, Copy, Debug, PartialEq, Eq)]
pub enum Rule {
    CapitalsOnly,
    SmallToo,
}

impl Rule {
    /// None is refusal 13.
    pub fn of_release(release: u8) -> Option<Rule> {
        match release {
            1 => Some(Rule::CapitalsOnly),
            2 => Some(Rule::SmallToo),
            _ => None,
        }
    }
}

/// Value of one digit byte; lower case is a digit under one rule alone.
pub fn value(byte: u8, rule: Rule) -> Option<u32> {
    match byte {
        b'0'..=b'9' => Some(u32::from(byte - b'0')),
        b'A'..=b'F' => Some(u32::from(byte - b'A') + 10),
        b'a'..=b'f' if rule == Rule::SmallToo => Some(u32::from(byte - b'a') + 10),
        _ => None,
    }
}

/// The same digits in capitals; None where a byte isn't one.
pub fn capitals(sent: &[u8], rule: Rule) -> Option<Vec<u8>> {
    sent.iter().map(|&byte| Some(CAPITALS[value(byte, rule)? as usize])).collect()
}

/// Number that a field of up to eight digits stands for, high digit first (000, 4-3: "Big").
pub fn number(field: &[u8]) -> Option<u32> {
    if field.len() > WIDEST {
        return None;
    }
    field.iter().try_fold(0, |sum, &byte| Some(sum * 16 + value(byte, Rule::CapitalsOnly)?))
}

/// Appends `number` as exactly `width` digits: leading zeros stay (000, 1.2 (1)).
pub fn push(text: &mut Vec<u8>, number: u32, width: usize) {
    for place in (0..width as u32).rev() {
        let digit = number.checked_shr(4 * place).unwrap_or(0) & 0xF;
        text.push(CAPITALS[digit as usize]);
    }
}

/// Takes fields from the front of a message content, one after the other.
pub struct Fields<'a> {
    rest: &'a [u8],
}

impl<'a> Fields<'a> {
    pub fn of(content: &'a [u8]) -> Fields<'a> {
        Fields { rest: content }
    }

    /// Next field of `width` digits; None when fewer bytes are left or one isn't a digit.
    pub fn take(&mut self, width: usize) -> Option<u32> {
        let (field, rest) = self.rest.split_at_checked(width)?;
        self.rest = rest;
        number(field)
    }

    /// Some only when nothing is left: contents have exactly their message's length.
    pub fn end(&self) -> Option<()> {
        self.rest.is_empty().then_some(())
    }
}

#[cfg(test)]
mod tests {
    use super::*;

    fn written(number: u32, width: usize) -> Vec<u8> {
        let mut text = Vec::new();
        push(&mut text, number, width);
        text
    }

    /// All bytes that are digits under a rule, and their values.
    fn digits(rule: Rule) -> (Vec<u8>, Vec<u32>) {
        (0..=255).filter_map(|byte| Some((byte, value(byte, rule)?))).unzip()
    }

    #[test]
    fn exactly_sixteen_bytes_are_digits_under_release_1() {
        let (bytes, values) = digits(Rule::CapitalsOnly);
        assert_eq!(bytes, b"0123456789ABCDEF");
        assert_eq!(values, (0..16).collect::<Vec<u32>>());
    }

    #[test]
    fn six_small_letters_more_are_digits_under_release_2() {
        let (bytes, values) = digits(Rule::SmallToo);
        assert_eq!(bytes, b"0123456789ABCDEFabcdef");
        assert_eq!(values, (0..16).chain(10..16).collect::<Vec<u32>>());
    }

    #[test]
    fn two_releases_name_a_rule() {
        let named: Vec<u8> = (0..=255).filter(|&byte| Rule::of_release(byte).is_some()).collect();
        assert_eq!(named, [1, 2]);
        assert_eq!(Rule::of_release(1), Some(Rule::CapitalsOnly));
        assert_eq!(Rule::of_release(2), Some(Rule::SmallToo));
    }

    #[test]
    fn what_is_sent_is_turned_into_capitals() {
        let both =
            |sent: &[u8]| [Rule::CapitalsOnly, Rule::SmallToo].map(|rule| capitals(sent, rule));
        assert_eq!(both(b"09AF"), [Some(b"09AF".to_vec()), Some(b"09AF".to_vec())]);
        assert_eq!(both(b"24e"), [None, Some(b"24E".to_vec())]);
        assert_eq!(both(b"aBcDeF"), [None, Some(b"ABCDEF".to_vec())]);
        assert_eq!(both(b""), [Some(Vec::new()), Some(Vec::new())]);
        for beside in b"g`@G/: \r" {
            assert_eq!(both(&[b'0', *beside]), [None, None]);
        }
    }

    #[test]
    fn numbers_are_hexadecimal_and_high_digit_first() {
        assert_eq!(number(b"010"), Some(16));
        assert_eq!(number(b"5DC"), Some(1_500));
        assert_eq!(number(b"FFFFFFFF"), Some(u32::MAX));
        assert_eq!(number(b""), Some(0));
        assert_eq!(number(b"5dc"), None);
        assert_eq!(number(b"0 1"), None);
        assert_eq!(number(b"000000001"), None);
    }

    #[test]
    fn written_numbers_keep_their_leading_zeros() {
        assert_eq!(written(0x12, 4), b"0012");
        assert_eq!(written(0x47, 2), b"47");
        assert_eq!(written(0, 3), b"000");
        assert_eq!(written(0xABCDEF, 8), b"00ABCDEF");
        assert_eq!(written(0x12345, 3), b"345");
        assert_eq!(written(u32::MAX, 10), b"00FFFFFFFF");
    }

    #[test]
    fn document_000_examples_of_positions() {
        // 000, "General Rules" 1.2: 400 mm and -400 mm in units of 0.001 mm.
        assert_eq!(written(400_000, 8), b"00061A80");
        assert_eq!(written((-400_000i32) as u32, 8), b"FFF9E580");
        assert_eq!(number(b"FFF9E580").map(|n| n as i32), Some(-400_000));
    }

    #[test]
    fn fields_are_taken_in_order_to_the_end() {
        let mut fields = Fields::of(b"00112C04");
        assert_eq!(fields.take(3), Some(1));
        assert_eq!(fields.take(3), Some(0x12C));
        assert_eq!(fields.end(), None);
        assert_eq!(fields.take(3), None);
        assert_eq!(fields.take(2), Some(4));
        assert_eq!(fields.end(), Some(()));
        assert_eq!(Fields::of(b"1a").take(2), None);
    }
}
