//! What a run of calls reached: numbers, sums, messages, and places near a limit.

use super::calls::Finding;
use super::compare::{Answer, Call, Lent};
use super::letter_places::has_small_digit;
use super::look_first;
use super::look_places::{of_changed, of_looked};
use super::one_byte::Judged;
use super::one_byte_places::of_one_byte;
use super::places::{self, as_read, reached, Place};
use crate::link::{Outcome, Shown};
use std::collections::BTreeMap;
use std::fmt;

pub const MESSAGES: [&str; 12] =
    ["200", "208", "209", "20D", "20E", "210", "212", "244", "246", "24B", "24C", "24E"];
const ANSWERS: [u16; 21] =
    [0, 1, 2, 3, 10, 4, 5, 13, 6, 12, 7, 8, 11, 101, 102, 103, 104, 105, 106, 107, 108];
/// A check gives all of them but this.
const OF_THE_REPLY: u16 = 1;
/// What the sum test said, by its number.
const SUMS: [&str; 4] = ["untested", "true", "switched off", "wrong"];
const STEPS_BACK: [u16; 7] = [0, 2, 3, 10, 4, 11, 9];
const FINDINGS: [&str; 4] = ["a frame", "nothing", "wait", "too long"];

/// How often each number was given.
type Numbers = BTreeMap<u16, usize>;

#[derive(Clone, Debug, Default, PartialEq, Eq)]
pub struct Tally {
    answers: Numbers,
    acts: Numbers,
    checks: Numbers,
    /// Frames that were checked and then acted on with nothing between, by the check's number.
    looked: Numbers,
    /// Told by answers and acts, and by checks.
    sums: [usize; 4],
    checked_sums: [usize; 4],
    /// Checks that show a message, by its number.
    shown: Numbers,
    steps_back: Numbers,
    findings: [usize; 4],
    /// Accepted and refused frames of each message, and accepted ones with a small letter among
    /// their digits; the last are any other.
    messages: BTreeMap<&'static str, [usize; 3]>,
    places: BTreeMap<&'static str, usize>,
}

impl Tally {
    /// Counts one call; `before` and `after` are what was lent.
    pub fn count(&mut self, call: &Call, before: &Lent, after: &Lent, answer: Answer) {
        for place in reached(call, before, after, answer) {
            *self.places.entry(place).or_default() += 1;
        }
        match (call, answer) {
            (Call::Answer { frame }, Answer::Answered(outcome)) => {
                *self.answers.entry(outcome.number).or_default() += 1;
                self.count_frame(frame, before, outcome);
            }
            (Call::Act { frame }, Answer::Answered(outcome)) => {
                *self.acts.entry(outcome.number).or_default() += 1;
                self.count_frame(frame, before, outcome);
            }
            (_, Answer::Checked(shown)) => self.count_check(shown),
            (_, Answer::SteppedBack(number)) => *self.steps_back.entry(number).or_default() += 1,
            (_, Answer::Received(Finding { code, .. })) => self.findings[usize::from(code)] += 1,
            _ => {}
        }
    }

    /// What a frame came to, answered or acted on.
    fn count_frame(&mut self, frame: &[u8], before: &Lent, outcome: Outcome) {
        self.sums[usize::from(outcome.sum)] += 1;
        let read = as_read(frame, before.settings.release);
        let kinds = self.messages.entry(message_of(&read)).or_default();
        kinds[usize::from(outcome.number != 0)] += 1;
        kinds[2] += usize::from(outcome.number == 0 && has_small_digit(frame));
    }

    fn count_check(&mut self, shown: Shown) {
        *self.checks.entry(shown.number).or_default() += 1;
        self.checked_sums[usize::from(shown.sum)] += 1;
        if shown.number == 0 {
            *self.shown.entry(shown.message).or_default() += 1;
        }
    }

    /// Counts one changed byte, besides its call.
    pub fn count_one_byte(&mut self, judged: &Judged) {
        self.count_places(of_one_byte(judged));
    }

    /// Counts a frame checked and then acted on with nothing between, besides its calls.
    pub fn count_looked(&mut self, judged: &look_first::Judged) {
        self.count_places(of_looked(judged));
        if judged.outcome.number == judged.shown.number {
            *self.looked.entry(judged.shown.number).or_default() += 1;
        }
    }

    /// Counts a frame checked, and acted on after something changed, besides its calls.
    pub fn count_changed(&mut self, shown: Shown, outcome: Outcome) {
        self.count_places(of_changed(shown, outcome));
    }

    fn count_places(&mut self, places: Vec<Place>) {
        for (place, reached) in places {
            *self.places.entry(place).or_default() += usize::from(reached);
        }
    }

    /// What was reached fewer times than this.
    pub fn rarer_than(&self, least: usize) -> Vec<String> {
        let mut rare = Vec::new();
        let mut look = |name: String, count: usize| {
            if count < least {
                rare.push(format!("{name}: {count}"));
            }
        };
        let of = |numbers: &Numbers, number: u16| numbers.get(&number).copied().unwrap_or(0);
        for number in ANSWERS {
            look(format!("answer {number}"), of(&self.answers, number));
            look(format!("act {number}"), of(&self.acts, number));
        }
        for number in ANSWERS.into_iter().filter(|&number| number != OF_THE_REPLY) {
            look(format!("check {number}"), of(&self.checks, number));
            look(format!("check {number}, then act {number}"), of(&self.looked, number));
        }
        for ((name, count), checked) in SUMS.into_iter().zip(self.sums).zip(self.checked_sums) {
            look(format!("sum {name}"), count);
            look(format!("sum {name} by check"), checked);
        }
        for number in STEPS_BACK {
            look(format!("step back {number}"), of(&self.steps_back, number));
        }
        for (name, count) in FINDINGS.into_iter().zip(self.findings) {
            look(format!("finder: {name}"), count);
        }
        for message in MESSAGES {
            let [accepted, refused, small] = self.messages.get(message).copied().unwrap_or([0; 3]);
            look(format!("{message}H accepted"), accepted);
            look(format!("{message}H refused"), refused);
            look(format!("{message}H accepted with a small letter"), small);
            look(format!("{message}H shown"), self.shown_of(message));
        }
        for place in places::all() {
            look(place.to_string(), self.places.get(place).copied().unwrap_or(0));
        }
        rare
    }

    /// How many checks showed this message.
    fn shown_of(&self, message: &str) -> usize {
        let number = u16::from_str_radix(message, 16).ok();
        number.and_then(|number| self.shown.get(&number)).copied().unwrap_or(0)
    }
}

impl fmt::Display for Tally {
    fn fmt(&self, out: &mut fmt::Formatter) -> fmt::Result {
        for (name, numbers) in [
            ("answers by number", &self.answers),
            ("checks by number", &self.checks),
            ("acts by number", &self.acts),
            ("looked first, by number", &self.looked),
            ("steps back by number", &self.steps_back),
        ] {
            writeln!(out, "{name}")?;
            for (number, count) in numbers {
                writeln!(out, "  {number:<42}{count:>10}")?;
            }
        }
        writeln!(out, "sums{:>40}{:>10}", "", "by check")?;
        for ((name, count), checked) in SUMS.iter().zip(self.sums).zip(self.checked_sums) {
            writeln!(out, "  {name:<32}{count:>10}{checked:>10}")?;
        }
        writeln!(out, "finder")?;
        for (name, count) in FINDINGS.iter().zip(self.findings) {
            writeln!(out, "  {name:<42}{count:>10}")?;
        }
        let [accepted, refused, small, shown] = ["accepted", "refused", "with a-f", "shown"];
        writeln!(out, "frames by message{accepted:>9}{refused:>10}{small:>10}{shown:>10}")?;
        for (name, [accepted, refused, small]) in &self.messages {
            let shown = self.shown_of(name);
            writeln!(out, "  {name:<14}{accepted:>10}{refused:>10}{small:>10}{shown:>10}")?;
        }
        writeln!(out, "places")?;
        for name in places::all() {
            let count = self.places.get(name).copied().unwrap_or(0);
            writeln!(out, "  {name:<42}{count:>10}")?;
        }
        Ok(())
    }
}

/// The message a frame names, as far as it is long enough to.
fn message_of(frame: &[u8]) -> &'static str {
    let id = frame.get(3..6).unwrap_or(&[]);
    let known = MESSAGES.into_iter().find(|message| message.as_bytes() == id);
    known.unwrap_or("other")
}
