//! The independent second program: the board of document 01 as a plain model on byte vectors.
//!
//! Written from document 01 (`01-scope.md`), requests a, b, c, f, g, l and n of document 02
//! (`02-change-requests.md`) and document 000 (IAI's X-SEL Format B specification), with the form of the C
//! calls from `include/cabinet.h`, and from nothing else, to judge the product. The public calls are
//! `frames::find`, `link::answer`, `link::check`, `link::act` and `link::step_back`; they take areas of any
//! length and never panic.

pub mod areas;
pub mod bench;
pub mod differential;
pub mod digits;
pub mod frames;
pub mod journal;
pub mod link;
pub mod messages;
mod replies;
pub mod vectors;

pub use areas::Board;
pub use frames::Found;
pub use link::{Outcome, Shown};
