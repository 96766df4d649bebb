//! The cases of the product's `vectors` program and what it must write (format: README, "Vectors").

mod count_cases;
mod drawn_cases;
mod fixed_cases;
mod journal_cases;
mod look_cases;
mod one_byte_cases;
mod play;
mod refusal_cases;
mod release_cases;
mod script;
mod sum_cases;
mod test_call_cases;
mod variable_cases;
mod variable_refusals;

pub use play::play;

use script::Script;

/// Standard input of the vectors program: all cases, the same in every run.
pub fn stdin() -> Vec<u8> {
    let mut script = Script::default();
    fixed_cases::add(&mut script);
    refusal_cases::add(&mut script);
    journal_cases::add(&mut script);
    variable_cases::add(&mut script);
    variable_refusals::add(&mut script);
    test_call_cases::add(&mut script);
    release_cases::add(&mut script);
    sum_cases::add(&mut script);
    one_byte_cases::add(&mut script);
    look_cases::add(&mut script);
    count_cases::add(&mut script);
    drawn_cases::add(&mut script);
    script.end()
}

/// Standard input and the expected standard output.
pub fn both() -> (Vec<u8>, String) {
    let stdin = stdin();
    let stdout = play(&stdin);
    (stdin, stdout)
}

#[cfg(test)]
mod tests {
    use super::*;
    use std::collections::BTreeSet;

    #[test]
    fn regenerating_gives_the_same_bytes() {
        assert_eq!(both(), both());
    }

    #[test]
    fn the_vectors_are_small_and_reach_every_number() {
        let (stdin, stdout) = both();
        // The product's program reads at most 163,840 bytes.
        assert!(stdin.len() < 163_840, "{} bytes", stdin.len());
        let lines = stdout.lines().count();
        assert!((300..=3_000).contains(&lines), "{lines} lines");
        let numbers = |letter: &str| -> BTreeSet<u16> {
            let lines = stdout.lines().filter_map(|line| line.strip_prefix(letter));
            lines.filter_map(|line| line.split(' ').next()?.parse().ok()).collect()
        };
        let all: BTreeSet<u16> = (0..=8).chain(10..=13).chain(101..=108).collect();
        assert_eq!(numbers("F "), all);
        assert_eq!(numbers("A "), all);
        assert_eq!(numbers("C "), all.into_iter().filter(|&number| number != 1).collect());
        assert_eq!(numbers("S "), BTreeSet::from([0, 2, 3, 4, 9, 10, 11]));
        assert_eq!(numbers("R "), BTreeSet::from([0, 1, 2, 3]));
    }

    #[test]
    fn the_vectors_reach_each_number_with_each_sum_that_goes_with_it() {
        let reached: BTreeSet<[u16; 2]> = both().1.lines().filter_map(number_and_sum).collect();
        let untested = [1, 2, 3, 4, 5, 6, 10, 13].map(|number| [number, 0]);
        let later = [0, 8, 11].into_iter().chain(101..=108);
        let tested = later.flat_map(|number| [[number, 1], [number, 2]]);
        let refused = [[7, 3], [12, 2]];
        assert_eq!(reached, tested.chain(untested).chain(refused).collect());
    }

    /// Of a frame's line.
    fn number_and_sum(line: &str) -> Option<[u16; 2]> {
        let mut fields = line.strip_prefix("F ")?.split(' ');
        let number = fields.next()?.parse().ok()?;
        let sum = fields.nth(3)?.parse().ok()?;
        Some([number, sum])
    }
}
