//! Compares an archive with the C calls of `include/cabinet.h` with the second program.
//!
//! `PLAYER="command words" cargo run --offline --release --bin differential`, with `host/play_calls.c`
//! linked with the archive as the command; the run is set by DIFFERENTIAL_CALLS, DIFFERENTIAL_SEED,
//! DIFFERENTIAL_GUARD, DIFFERENTIAL_BATCH and DIFFERENTIAL_SHOW.

use second::differential::{run, Plan, Player};
use std::process::ExitCode;
use std::time::Instant;

/// From this many calls on, everything must have been reached.
const ENOUGH: usize = 100_000;

fn main() -> ExitCode {
    match compare() {
        Ok(code) => code,
        Err(why) => {
            eprintln!("differential: {why}");
            ExitCode::from(2)
        }
    }
}

fn compare() -> Result<ExitCode, String> {
    let words = std::env::var("PLAYER").map_err(|_| "PLAYER must be the player's command")?;
    let guard = setting("DIFFERENTIAL_GUARD", 64)? as usize;
    if !guard.is_multiple_of(8) {
        return Err("DIFFERENTIAL_GUARD must be a multiple of eight".to_string());
    }
    let batch = setting("DIFFERENTIAL_BATCH", 256)? as usize;
    let plan = Plan {
        seed: setting("DIFFERENTIAL_SEED", 20_261_115)?,
        calls: setting("DIFFERENTIAL_CALLS", 200_000)? as usize,
        show: setting("DIFFERENTIAL_SHOW", 0)? as usize,
    };
    let since = Instant::now();
    let started = Player::start(&words, guard, batch);
    let mut player = started.map_err(|error| format!("the player, {words}: {error}"))?;
    let tally = match run(&mut player, &plan) {
        Ok(tally) => tally,
        Err(difference) => {
            eprintln!("{difference}");
            return Ok(ExitCode::FAILURE);
        }
    };
    let seconds = since.elapsed().as_secs_f64();
    print!("{tally}");
    println!("{} calls, seed {}, no difference, {seconds:.1} s", plan.calls, plan.seed);
    let missed = tally.rarer_than(1);
    if plan.calls >= ENOUGH && !missed.is_empty() {
        eprintln!("not reached: {}", missed.join(", "));
        return Ok(ExitCode::FAILURE);
    }
    Ok(ExitCode::SUCCESS)
}

/// A number from the environment, or its default.
fn setting(name: &str, default: u64) -> Result<u64, String> {
    match std::env::var(name) {
        Ok(text) => text.parse().map_err(|_| format!("{name} is not a number: {text}")),
        Err(_) => Ok(default),
    }
}
