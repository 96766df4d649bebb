//! Comparing the board's archive, or anything with the same five calls, with the second program:
//! long drawn sequences of calls, every number and every lent byte compared after each.

pub mod calls;
pub mod compare;
pub mod count_places;
pub mod dice;
pub mod drawn_boards;
pub mod drawn_frames;
pub mod drawn_letters;
pub mod drawn_line;
pub mod drawn_one_byte;
pub mod drawn_test_calls;
pub mod kept_count;
pub mod left;
pub mod letter_places;
pub mod look_first;
pub mod look_places;
pub mod one_byte;
pub mod one_byte_places;
pub mod places;
pub mod player;
pub mod product;
pub mod run;
pub mod spoil;
pub mod sum_places;
pub mod tally;

pub use calls::{Areas, Calls, Finding, SecondProgram};
pub use player::Player;
pub use product::{Here, Product};
pub use run::{run, run_with, Plan};
pub use tally::Tally;
