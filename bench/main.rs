//! Times the proved machines against the plain Rust ones of `baseline.rs`, and the proved reading of
//! rules against the second program's, in one run and on the same inputs, and prints the ratio of
//! each. Both sides answer a number, and the numbers must agree.

mod baseline;
#[path = "../docs/src/second/texts.rs"]
mod texts;

use baseline::{Machine, Pair, Sheet};
use std::hint::black_box;
use std::process::ExitCode;
use std::time::{Duration, Instant};

/// The most that the proved side may take, as a multiple of the plain one: on machines, and on rules.
const LIMIT: f64 = 1.5;
const RULE_LIMIT: f64 = 2.0;
/// The most that a rule may take for each byte, as a multiple of what a rule of a quarter the bytes takes.
const GROWTH_LIMIT: f64 = 1.5;
const READINGS: u64 = 1000;
const ROUNDS: usize = 31;
const QUESTIONS: usize = 1_000_000;
const SEED: u64 = 20_261_117;

mod proved {
    #[link(name = "gauge", kind = "static")]
    extern "C" {
        fn gauge_open(bytes: *const u8, len: usize) -> usize;
        fn gauge_sheet(bytes: *const u8, len: usize, count: usize, seed: u64) -> u64;
        fn gauge_pair(left: *const u8, left_len: usize, right: *const u8, right_len: usize, count: usize, seed: u64) -> u64;
        fn gauge_rule(text: *const u8, len: usize) -> u8;
    }

    // These functions ask nothing of their arguments: a slice is passed as its pointer and its length.
    pub fn open(bytes: &[u8]) -> u64 {
        unsafe { gauge_open(bytes.as_ptr(), bytes.len()) as u64 }
    }

    pub fn sheet(bytes: &[u8], count: usize, seed: u64) -> u64 {
        unsafe { gauge_sheet(bytes.as_ptr(), bytes.len(), count, seed) }
    }

    pub fn pair(left: &[u8], right: &[u8], count: usize, seed: u64) -> u64 {
        unsafe { gauge_pair(left.as_ptr(), left.len(), right.as_ptr(), right.len(), count, seed) }
    }

    pub fn rule(text: &[u8]) -> u64 {
        unsafe { u64::from(gauge_rule(text.as_ptr(), text.len())) }
    }
}

fn ask<M: Machine>(machine: &M, count: usize, seed: u64) -> u64 {
    let states = machine.states() as u64;
    if states == 0 {
        return 0;
    }
    let mut x = seed;
    let mut total = 0u64;
    for _ in 0..count {
        let from = (x >> 20) % states;
        let to = (x >> 40) % states;
        let seconds = machine.step(from as usize, to as usize).unwrap_or(0);
        total = total.wrapping_add(u64::from(seconds));
        x = x.wrapping_mul(6_364_136_223_846_793_005).wrapping_add(1_442_695_040_888_963_407);
    }
    total
}

/// A sheet with no names whose state s has `out` steps, spread over all states.
fn sheet_bytes(states: u16, out: u16, steps: usize) -> Vec<u8> {
    let mut bytes = b"MOD\x01\x00".to_vec();
    bytes.extend_from_slice(&states.to_le_bytes());
    bytes.push(0);
    bytes.resize(bytes.len() + 4 * usize::from(states), 0);
    bytes.extend_from_slice(&(steps as u16).to_le_bytes());
    let gap = states / out;
    let all = (0..states).flat_map(|s| (0..out).map(move |k| (s, k * gap)));
    for (from, to) in all.take(steps) {
        for number in [from, to, from ^ to] {
            bytes.extend_from_slice(&number.to_le_bytes());
        }
    }
    bytes
}

/// The least time of several rounds, the two sides in turn.
fn best_times(sides: [&dyn Fn() -> u64; 2]) -> [Duration; 2] {
    let mut best = [Duration::MAX; 2];
    for _ in 0..ROUNDS {
        for (side, run) in sides.into_iter().enumerate() {
            let start = Instant::now();
            black_box(run());
            best[side] = best[side].min(start.elapsed());
        }
    }
    best
}

fn verdict(name: &str, ratio: f64, limit: f64, told: &str) -> bool {
    let word = if ratio <= limit { "within" } else { "OVER" };
    println!("{name}: {told}, ratio {ratio:.2} ({word} {limit})");
    ratio <= limit
}

fn compare(name: &str, limit: f64, proved: impl Fn() -> u64, plain: impl Fn() -> u64) -> bool {
    assert_eq!(proved(), plain(), "{name}: the two sides differ");
    let best = best_times([&proved, &plain]);
    let told = format!("proved {:?}, plain {:?}", best[0], best[1]);
    verdict(name, best[0].as_secs_f64() / best[1].as_secs_f64(), limit, &told)
}

/// A rule for a ring, of just so many bytes: names and operators, brackets, and an expression.
fn rule_text(bytes: usize) -> Vec<u8> {
    let mut text = b"EF[aim.{not home}*]((aim))".to_vec();
    while text.len() + 18 <= bytes {
        text.extend_from_slice(b" or (home) and aim");
    }
    text.resize(bytes, b' ');
    text
}

fn known(word: &[u8]) -> bool {
    word == b"home" || word == b"aim"
}

fn read_many(text: &[u8], read: impl Fn(&[u8]) -> u64) -> u64 {
    (0..READINGS).map(|_| read(black_box(text))).sum()
}

fn judge(text: &[u8]) -> u64 {
    texts::judge(text, &known).map_or_else(|fault| u64::from(fault.number), |()| 0)
}

/// Whether reading a rule takes time in proportion to its bytes.
fn grows_evenly() -> bool {
    let (short, long) = (rule_text(60), rule_text(240));
    let best = best_times([&|| read_many(&long, proved::rule), &|| read_many(&short, proved::rule)]);
    let told = format!("240 bytes {:?}, 60 bytes {:?}", best[0], best[1]);
    verdict("time for each byte of a rule", best[0].as_secs_f64() / best[1].as_secs_f64() / 4.0, GROWTH_LIMIT, &told)
}

fn main() -> ExitCode {
    let large = sheet_bytes(1024, 64, 65_535);
    let small = sheet_bytes(32, 32, 1024);
    let side = Sheet::open(&small).expect("a good sheet");
    let sheet = Sheet::open(&large).expect("a good sheet");
    let open = compare(
        "open a sheet of 1,024 states and 65,535 steps",
        LIMIT,
        || proved::open(black_box(&large)),
        || Sheet::open(black_box(&large)).map_or(0, |s| s.states() as u64),
    );
    let steps = compare(
        "1,000,000 steps of that sheet, opened once",
        LIMIT,
        || proved::sheet(black_box(&large), QUESTIONS, SEED),
        || {
            black_box(Sheet::open(black_box(&large)));
            ask(black_box(&sheet), QUESTIONS, SEED)
        },
    );
    let pair = compare(
        "1,000,000 steps of a pair of 32 by 32 states",
        LIMIT,
        || proved::pair(black_box(&small), black_box(&small), QUESTIONS, SEED),
        || ask(black_box(&Pair::new(side, side)), QUESTIONS, SEED),
    );
    let text = rule_text(255);
    assert_eq!(proved::rule(&text), 0, "the measured text is a rule");
    let rule = compare(
        "read a rule of 255 bytes, 1,000 times",
        RULE_LIMIT,
        || read_many(&text, proved::rule),
        || read_many(&text, judge),
    );
    let growth = grows_evenly();
    if open && steps && pair && rule && growth {
        ExitCode::SUCCESS
    } else {
        ExitCode::FAILURE
    }
}
