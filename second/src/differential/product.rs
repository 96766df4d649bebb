//! What is compared with the second program: calls in this process, or a player in its own.

use super::calls::{Areas, Calls};
use super::compare::{Answer, Call, Lent, Model};
use super::left::Left;

/// A call as the second program made it.
pub struct Made<'a> {
    /// Counted from 1.
    pub number: usize,
    pub call: &'a Call,
    pub before: &'a Lent,
    pub after: &'a Lent,
    pub answer: Answer,
}

impl Made<'_> {
    pub fn left(&self) -> Left {
        Left::of(self.call, self.before, self.after, self.answer)
    }
}

/// The first thing that isn't as expected.
#[derive(Clone, Debug, PartialEq, Eq)]
pub enum Difference {
    /// The call of this number left something else.
    Left(usize, Box<Left>),
    /// Nothing came back from the call of this number, and why.
    Nothing(usize, String),
    /// The second program's own answer to the call of this number breaks this rule, and how.
    Rule(&'static str, usize, String),
    /// All calls left what they must, but the player's end was not good.
    End(String),
}

/// Makes the same calls again and compares; the difference may be found some calls later.
pub trait Product {
    fn make(&mut self, made: &Made) -> Result<(), Difference>;

    /// All calls are made: what isn't compared yet is compared now.
    fn end(&mut self) -> Result<(), Difference>;
}

/// Calls made in this process.
pub struct Here<'a>(pub &'a dyn Calls);

impl Product for Here<'_> {
    fn make(&mut self, made: &Made) -> Result<(), Difference> {
        let mut lent = made.before.clone();
        let answer = make_on(self.0, made.call, &mut lent);
        let given = Left::of(made.call, made.before, &lent, answer);
        if given == made.left() {
            return Ok(());
        }
        Err(Difference::Left(made.number, Box::new(given)))
    }

    fn end(&mut self) -> Result<(), Difference> {
        Ok(())
    }
}

/// The call on these calls; `lent` is then what it left.
pub fn make_on(calls: &dyn Calls, call: &Call, lent: &mut Lent) -> Answer {
    let Lent { board, axes, settings, reply } = lent;
    let mut areas = Areas {
        points: &mut board.points,
        columns: &mut board.columns,
        integers: &mut board.integers,
        flags: &mut board.flags,
        journal: &mut board.journal,
        used: board.used,
        effective: board.effective,
    };
    let answer = match call {
        Call::Answer { frame } => {
            Answer::Answered(calls.answer(frame, &mut areas, axes, *settings, reply))
        }
        Call::Check { frame } => Answer::Checked(calls.check(frame, &mut areas, axes, *settings)),
        Call::Act { frame } => {
            Answer::Answered(calls.act(frame, &mut areas, axes, *settings, reply))
        }
        Call::StepBack => Answer::SteppedBack(calls.step_back(&mut areas, settings.firsts)),
        Call::Receive { received } => Answer::Received(calls.receive(received)),
    };
    (board.used, board.effective) = (areas.used, areas.effective);
    answer
}

/// The call as the second program makes it; `lent` is then what it left.
pub fn made<'a>(
    model: Model,
    number: usize,
    call: &'a Call,
    before: &'a Lent,
    lent: &'a mut Lent,
) -> Made<'a> {
    let answer = model(call, lent);
    Made { number, call, before, after: lent, answer }
}
