//! Times the proved machines beside the same rules in plain Rust.

#[allow(dead_code)]
mod rules;

use rules::{Edit, Machine, ReplayMachine, UndoMachine};
use std::hint::black_box;
use std::process::ExitCode;
use std::time::{Duration, Instant};

// The proved side. Each gives the sum, or `NO_MEMORY`.
extern "C" {
    fn undo_rounds(rounds: u32) -> u64;
    fn replay_rounds(rounds: u32) -> u64;
}

const NO_MEMORY: u64 = u64::MAX;
const REPETITIONS: usize = 9;
const DEFAULT_ROUNDS: u32 = 100_000;

/// The measured work over a plain machine. No move of it is ever refused.
fn plain_rounds<M: Machine>(rounds: u32) -> u64 {
    let mut machine = M::open();
    for row in 1..=8 {
        for edit in [
            Edit {
                kind: 1,
                row,
                size: 1,
                a: 10_000,
                q: 0,
            },
            Edit {
                kind: 2,
                row,
                size: 1,
                a: 0,
                q: 1,
            },
        ] {
            machine.apply(edit).expect("room for an edit");
            machine.settle().expect("an edit to settle");
        }
    }
    let mut sum = 0u64;
    for n in 0..u64::from(rounds) {
        for k in 0..16 {
            let edit = Edit {
                kind: 2,
                row: (k % 8 + 1) as i32,
                size: ((5 * k + n) % 12 + 1) as i32,
                a: ((n + k) % 50) as i32 - 10,
                q: (k % 4 + 1) as i32,
            };
            machine.apply(edit).expect("room for an edit");
        }
        // From here on the compiler must take it that every part of the machine is looked at.
        black_box(&mut machine);
        let cell = machine
            .read((n % 8 + 1) as i32, (n % 12 + 1) as i32)
            .expect("a cell of the sheet");
        sum = sum.wrapping_add(u64::from(cell));
        for _ in 0..16 {
            machine.undo().expect("an edit to undo");
        }
        black_box(&mut machine);
    }
    sum
}

fn proved_undo(rounds: u32) -> u64 {
    // SAFETY: the function takes and gives plain numbers and keeps nothing.
    unsafe { undo_rounds(rounds) }
}

fn proved_replay(rounds: u32) -> u64 {
    // SAFETY: as above.
    unsafe { replay_rounds(rounds) }
}

struct Side {
    name: &'static str,
    run: fn(u32) -> u64,
    best: Duration,
}

fn main() -> ExitCode {
    let rounds = match std::env::args().nth(1).map(|word| word.parse()) {
        None => DEFAULT_ROUNDS,
        Some(Ok(rounds)) => rounds,
        Some(Err(_)) => {
            eprintln!("bench [ROUNDS]");
            return ExitCode::FAILURE;
        }
    };
    let side = |name, run| Side {
        name,
        run,
        best: Duration::MAX,
    };
    let mut sides = [
        side("proved undo", proved_undo as fn(u32) -> u64),
        side("plain undo", plain_rounds::<UndoMachine>),
        side("proved replay", proved_replay),
        side("plain replay", plain_rounds::<ReplayMachine>),
    ];

    // All four take turns, so that a slow spell of the computer touches each alike.
    let mut agreed = None;
    for _ in 0..REPETITIONS {
        for side in &mut sides {
            let start = Instant::now();
            let sum = black_box((side.run)(black_box(rounds)));
            side.best = side.best.min(start.elapsed());
            if sum == NO_MEMORY {
                eprintln!("{}: found no memory", side.name);
                return ExitCode::FAILURE;
            }
            let expected = *agreed.get_or_insert(sum);
            if sum != expected {
                eprintln!(
                    "{}: the sum is {sum}, the first sum was {expected}",
                    side.name
                );
                return ExitCode::FAILURE;
            }
        }
    }

    let sum = agreed.unwrap_or(0);
    println!("{rounds} rounds, best of {REPETITIONS}; all four sums are {sum}");
    for (machine, pair) in ["undo", "replay"].iter().zip(sides.chunks(2)) {
        let ms = |side: &Side| side.best.as_secs_f64() * 1e3;
        let (proved, plain) = (ms(&pair[0]), ms(&pair[1]));
        let ratio = proved / plain;
        println!("{machine:<7} proved {proved:9.2} ms   plain {plain:9.2} ms   ratio {ratio:.2}");
    }
    ExitCode::SUCCESS
}
