//! A run: board after board, call after call, until the planned number is made.

use super::compare::{dump, parts, second, Answer, Call, Lent, Model};
use super::dice::Dice;
use super::kept_count;
use super::look_first::{self, Looked};
use super::one_byte;
use super::product::{made, Difference, Made, Product};
use super::{drawn_boards, drawn_frames, drawn_line, drawn_one_byte, spoil, Tally};

/// Steps back in one go, at most.
const MOST_STEPS: usize = 60;

#[derive(Clone, Copy, Debug)]
pub struct Plan {
    pub seed: u64,
    pub calls: usize,
    /// Number of a call whose inputs are printed before it is made, should it not come back; or 0.
    pub show: usize,
}

/// Makes the calls of a plan; Err is the first difference, with all that was handed over.
pub fn run(product: &mut dyn Product, plan: &Plan) -> Result<Tally, String> {
    run_with(&second, product, plan)
}

/// The same with another model in the second program's place, to try the run itself.
pub fn run_with(model: Model, product: &mut dyn Product, plan: &Plan) -> Result<Tally, String> {
    let (tally, difference) = calls(model, product, plan);
    // A broken rule is found on this side alone, so the player's end is asked for in any case.
    let end = product.end().err();
    match difference.or(end) {
        None => Ok(tally),
        Some(difference) => Err(explained(model, difference, plan.seed)),
    }
}

/// Makes the calls of a plan, until a difference is found.
fn calls(model: Model, product: &mut dyn Product, plan: &Plan) -> (Tally, Option<Difference>) {
    let dice = Dice::new(plan.seed);
    let mut run = Run { model, product, plan: *plan, dice, tally: Tally::default(), made: 0 };
    while run.made < plan.calls {
        let mut lent = drawn_boards::lent(&mut run.dice);
        let until = run.made + drawn_boards::calls(&mut run.dice, &lent);
        while run.made < until.min(plan.calls) {
            if let Err(difference) = run.next(&mut lent) {
                return (run.tally, Some(difference));
            }
        }
    }
    (run.tally, None)
}

/// A difference as text; its call is drawn again.
fn explained(model: Model, difference: Difference, seed: u64) -> String {
    let (what, number) = match &difference {
        Difference::Left(number, _) | Difference::Nothing(number, _) => {
            ("difference".to_string(), *number)
        }
        Difference::Rule(rule, number, _) => (format!("{rule} broken"), *number),
        Difference::End(why) => return format!("difference at the end: {why}"),
    };
    let mut again = Again { difference, text: String::new() };
    calls(model, &mut again, &Plan { seed, calls: number, show: 0 });
    format!("{what} at call {number} of seed {seed}\n{}", again.text)
}

/// Makes no call, and explains the difference where it comes by.
struct Again {
    difference: Difference,
    text: String,
}

impl Product for Again {
    fn make(&mut self, made: &Made) -> Result<(), Difference> {
        let what = match &self.difference {
            Difference::Left(number, given) if *number == made.number => {
                given.differs(&made.left(), parts(made.call, made.before))
            }
            Difference::Nothing(number, why) if *number == made.number => {
                format!("nothing came back ({why}), from this call or a later one of its batch")
            }
            Difference::Rule(_, number, how) if *number == made.number => how.clone(),
            _ => return Ok(()),
        };
        self.text = format!("{what}\n{}", dump(made.call, made.before));
        Ok(())
    }

    fn end(&mut self) -> Result<(), Difference> {
        Ok(())
    }
}

struct Run<'a> {
    model: Model<'a>,
    product: &'a mut dyn Product,
    plan: Plan,
    dice: Dice,
    tally: Tally,
    made: usize,
}

impl Run<'_> {
    /// One call or two, or several steps back; what is accepted stays for the next.
    fn next(&mut self, lent: &mut Lent) -> Result<(), Difference> {
        spoil::mend_count_at_last(&mut self.dice, lent);
        match self.dice.roll(114) {
            0..=45 => {
                let frame = drawn_frames::good(&mut self.dice, lent);
                self.hand(frame, lent)
            }
            46..=48 => {
                let frame = drawn_frames::odd_sc(&mut self.dice, lent);
                self.hand(frame, lent)
            }
            49..=54 => {
                let frame = drawn_frames::odd_letters(&mut self.dice, lent);
                self.hand(frame, lent)
            }
            55..=68 => {
                let frame = drawn_frames::damaged(&mut self.dice, lent);
                self.hand(frame, lent)
            }
            69..=74 => self.steps_back(lent),
            75..=82 => {
                let received = drawn_line::received(&mut self.dice);
                self.make(Call::Receive { received }, lent)?;
                Ok(())
            }
            83..=95 => self.spoiled(lent),
            96..=101 => self.one_byte(lent),
            102 | 103 => self.changed_between(lent),
            104..=109 => self.miscounted(lent),
            _ => {
                spoil::change(&mut self.dice, lent);
                let frame = drawn_frames::good(&mut self.dice, lent);
                self.hand(frame, lent)
            }
        }
    }

    /// A frame in one of four ways: answered, checked and then acted on, acted on alone, checked alone.
    fn hand(&mut self, frame: Vec<u8>, lent: &mut Lent) -> Result<(), Difference> {
        let call = match self.dice.roll(10) {
            0..=5 => Call::Answer { frame },
            6 | 7 => return self.look_first(frame, lent),
            8 => Call::Act { frame },
            _ => Call::Check { frame },
        };
        self.make(call, lent)?;
        Ok(())
    }

    /// A frame checked and then acted on with nothing between; the rule of that is judged too.
    fn look_first(&mut self, frame: Vec<u8>, lent: &mut Lent) -> Result<(), Difference> {
        let before = lent.clone();
        let checked = self.make(Call::Check { frame: frame.clone() }, lent)?;
        let between = lent.clone();
        let acted = self.make(Call::Act { frame: frame.clone() }, lent)?;
        let (frame, before, between) = (&frame, &before, &between);
        let looked = Looked { frame, before, between, after: lent, checked, acted };
        let judged = look_first::judged(self.model, &looked);
        let judged = judged.map_err(|how| Difference::Rule(look_first::RULE, self.made, how))?;
        self.tally.count_looked(&judged);
        Ok(())
    }

    /// A frame checked and then acted on, where a spoiled copy is lent to one of the two: acting goes by
    /// what it finds and not by what was shown.
    fn changed_between(&mut self, lent: &mut Lent) -> Result<(), Difference> {
        let frame = drawn_frames::good(&mut self.dice, lent);
        let (check, act) = (Call::Check { frame: frame.clone() }, Call::Act { frame });
        let mut copy = lent.clone();
        spoil::spoil(&mut self.dice, &mut copy);
        let both = match self.dice.one_in(2) {
            true => (self.make(check, lent)?, self.make(act, &mut copy)?),
            false => (self.make(check, &mut copy)?, self.make(act, lent)?),
        };
        if let (Answer::Checked(shown), Answer::Answered(outcome)) = both {
            self.tally.count_changed(shown, outcome);
        }
        Ok(())
    }

    /// One step back most often, many in a row now and then, also past the last entry.
    fn steps_back(&mut self, lent: &mut Lent) -> Result<(), Difference> {
        for _ in 0..self.dice.pick(&[1, 1, 1, 1, 1, 1, 2, 2, 3, 5, 8, MOST_STEPS]) {
            let empty = lent.board.used == 0;
            self.make(Call::StepBack, lent)?;
            if empty {
                break;
            }
        }
        Ok(())
    }

    /// A call, or a check and an act, on a spoiled copy of what is lent; the copy is thrown away.
    fn spoiled(&mut self, lent: &Lent) -> Result<(), Difference> {
        let mut copy = lent.clone();
        spoil::spoil(&mut self.dice, &mut copy);
        let frame = match self.dice.roll(9) {
            0..=2 => {
                self.make(Call::StepBack, &mut copy)?;
                return Ok(());
            }
            3 | 4 => drawn_frames::damaged(&mut self.dice, lent),
            5 => drawn_frames::odd_sc(&mut self.dice, lent),
            _ => drawn_frames::good(&mut self.dice, lent),
        };
        self.hand(frame, &mut copy)
    }

    /// A call that looks at the count, on a copy with a wrong one, now and then spoiled besides.
    fn miscounted(&mut self, lent: &Lent) -> Result<(), Difference> {
        let mut copy = lent.clone();
        spoil::wrong_count(&mut self.dice, &mut copy);
        if self.dice.one_in(8) {
            spoil::spoil(&mut self.dice, &mut copy);
        }
        if self.dice.one_in(5) {
            self.make(Call::StepBack, &mut copy)?;
            return Ok(());
        }
        let frame = drawn_frames::of_count(&mut self.dice, lent);
        self.hand(frame, &mut copy)
    }

    /// A frame with a true SC of which one byte is changed, now and then on a spoiled copy.
    fn one_byte(&mut self, lent: &mut Lent) -> Result<(), Difference> {
        let [unchanged, frame] = drawn_one_byte::one_byte(&mut self.dice, lent);
        let call = Call::Answer { frame };
        if self.dice.one_in(12) {
            let mut copy = lent.clone();
            spoil::spoil(&mut self.dice, &mut copy);
            self.make_from(Some(&unchanged), call, &mut copy)?;
        } else {
            self.make_from(Some(&unchanged), call, lent)?;
        }
        Ok(())
    }

    fn make(&mut self, call: Call, lent: &mut Lent) -> Result<Answer, Difference> {
        self.make_from(None, call, lent)
    }

    /// One call, and what the second program answered, on which the rule of the kept count is judged; where
    /// its frame was made from a frame with a true SC, the rule of that is judged too.
    fn make_from(
        &mut self,
        unchanged: Option<&[u8]>,
        call: Call,
        lent: &mut Lent,
    ) -> Result<Answer, Difference> {
        let before = lent.clone();
        self.made += 1;
        if self.made == self.plan.show {
            eprintln!("call {}\n{}", self.made, dump(&call, &before));
        }
        let made = made(self.model, self.made, &call, &before, lent);
        self.product.make(&made)?;
        self.tally.count(&call, &before, made.after, made.answer);
        let judged = kept_count::judged(&made);
        judged.map_err(|how| Difference::Rule(kept_count::RULE, self.made, how))?;
        if let Some(unchanged) = unchanged {
            let judged = one_byte::judged(self.model, unchanged, &made);
            let judged = judged.map_err(|how| Difference::Rule(one_byte::RULE, self.made, how))?;
            judged.iter().for_each(|judged| self.tally.count_one_byte(judged));
        }
        Ok(made.answer)
    }
}
