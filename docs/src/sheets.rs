//! Writes mode sheets, good and faulty, for the comparison of the two programs.
//!
//!     sheets SEED COUNT DIR
//!
//! writes the files 00000.mod, 00001.mod and so on into DIR. The same seed and count
//! always give the same files. First come the sheets that are the same for every count
//! (those at the limits, and all the beginnings of some small sheets), then by turns good
//! sheets, sheets with one byte damaged, with one rule broken, and with two.

use std::collections::{BTreeMap, BTreeSet};
use std::fs;
use std::io;
use std::path::Path;
use std::process::ExitCode;

mod dice;
use dice::{write_seeded, Dice};

const KEY_WORDS: [&str; 11] = [
    "true", "false", "not", "and", "or", "EF", "AF", "EG", "AG", "LOOP", "SAT",
];

/// Good names: common ones, so that two sheets often share some, names that begin with a
/// key word or differ from it in case only, and the shortest, the longest and the first
/// and last letters and digits there are.
const GOOD_WORDS: [&str; 36] = [
    "home",
    "aim",
    "shut",
    "turn",
    "open",
    "look",
    "trueish",
    "falsehood",
    "notion",
    "android",
    "order",
    "EFfect",
    "AF_",
    "EG0",
    "AGe",
    "LOOPS",
    "SATurn",
    "True",
    "FALSE",
    "Not",
    "AND",
    "oR",
    "ef",
    "loop",
    "Sat",
    "a",
    "z",
    "A",
    "Z",
    "A0",
    "z9_",
    "tru",
    "truetruetruetrue",
    "sixteen_letters_",
    "Z999999999999999",
    "a_______________",
];

/// Bytes that no name has, most of them next to one that is allowed.
const BAD_BYTES: [u8; 16] = [
    0, b'\n', b' ', b'-', b'.', b'/', b':', b'@', b'[', b'^', b'`', b'{', 0x7F, 0x80, 0xC3, 0xFF,
];

fn main() -> ExitCode {
    write_seeded("sheets", write_sheets)
}

fn write_sheets(seed: u64, count: usize, dir: &Path) -> io::Result<()> {
    let mut dice = Dice(seed);
    let mut fixed = limits(&mut dice);
    fixed.extend(edges_of_names());
    fixed.extend(edges_of_labels());
    fixed.extend(large(&mut dice));
    fixed.extend(beginnings(&mut dice));
    fs::create_dir_all(dir)?;
    let mut fixed = fixed.into_iter();
    for number in 0..count {
        let bytes = fixed.next().unwrap_or_else(|| by_turns(number, &mut dice));
        fs::write(dir.join(format!("{number:05}.mod")), bytes)?;
    }
    Ok(())
}

fn by_turns(number: usize, dice: &mut Dice) -> Vec<u8> {
    match number % 6 {
        0 | 1 => good(dice).bytes(),
        2 => damaged(dice),
        3 => one_rule_broken(number / 6, dice),
        _ => two_rules_broken(dice),
    }
}

// ---------------------------------------------------------------- drafts

/// A sheet before it is bytes. Counts and lengths are kept beside what they count, so
/// that they can be wrong.
#[derive(Clone)]
struct Draft {
    mark: [u8; 3],
    version: u16,
    state_count: u16,
    name_count: u8,
    names: Vec<Name>,
    labels: Vec<u32>,
    step_count: u16,
    steps: Vec<Step>,
    tail: Vec<u8>,
}

#[derive(Clone)]
struct Name {
    length: u8,
    word: Vec<u8>,
}

impl Name {
    fn new(word: &[u8]) -> Name {
        Name {
            length: word.len() as u8,
            word: word.to_vec(),
        }
    }
}

#[derive(Clone, Copy)]
struct Step {
    from: u16,
    to: u16,
    seconds: u16,
}

/// The step that is enough for a sheet of one state.
const WAIT: Step = Step {
    from: 0,
    to: 0,
    seconds: 7,
};

impl Draft {
    fn new(words: &[String], labels: Vec<u32>, steps: Vec<Step>) -> Draft {
        Draft {
            mark: *b"MOD",
            version: 1,
            state_count: labels.len() as u16,
            name_count: words.len() as u8,
            names: words
                .iter()
                .map(|word| Name::new(word.as_bytes()))
                .collect(),
            labels,
            step_count: steps.len() as u16,
            steps,
            tail: Vec::new(),
        }
    }

    fn bytes(&self) -> Vec<u8> {
        let mut bytes = self.mark.to_vec();
        bytes.extend(self.version.to_le_bytes());
        bytes.extend(self.state_count.to_le_bytes());
        bytes.push(self.name_count);
        for name in &self.names {
            bytes.push(name.length);
            bytes.extend(&name.word);
        }
        bytes.extend(self.labels.iter().flat_map(|label| label.to_le_bytes()));
        bytes.extend(self.step_count.to_le_bytes());
        for step in &self.steps {
            for number in [step.from, step.to, step.seconds] {
                bytes.extend(number.to_le_bytes());
            }
        }
        bytes.extend(&self.tail);
        bytes
    }

    /// Puts one more step in front of the one at a place, and counts it.
    fn insert_step(&mut self, place: usize, step: Step) {
        self.steps.insert(place, step);
        self.step_count = self.step_count.wrapping_add(1);
    }

    fn remove_steps_of(&mut self, state: usize) {
        let before = self.steps.len();
        self.steps.retain(|step| usize::from(step.from) != state);
        let removed = (before - self.steps.len()) as u16;
        self.step_count = self.step_count.wrapping_sub(removed);
    }
}

/// Different good words, as many as asked for.
fn words(count: usize, dice: &mut Dice) -> Vec<String> {
    let mut list: Vec<String> = Vec::new();
    while list.len() < count {
        let word = word(dice);
        if !list.contains(&word) && !KEY_WORDS.contains(&word.as_str()) {
            list.push(word);
        }
    }
    list
}

fn word(dice: &mut Dice) -> String {
    if dice.one_in(2) {
        return dice.pick(&GOOD_WORDS).to_string();
    }
    let length = match dice.below(6) {
        0 => 1,
        1 => 16,
        _ => dice.between(2, 15),
    };
    spelled(length, dice)
}

/// A word of this length, by letters; it might by chance be a key word.
fn spelled(length: usize, dice: &mut Dice) -> String {
    const LETTERS: &[u8] = b"abcdefghijklmnopqrstuvwxyzABCDEFGHIJKLMNOPQRSTUVWXYZ";
    const FURTHER: &[u8] = b"abcdefghijklmnopqrstuvwxyzABCDEFGHIJKLMNOPQRSTUVWXYZ0123456789_";
    (0..length)
        .map(|place| dice.pick(if place == 0 { LETTERS } else { FURTHER }) as char)
        .collect()
}

/// The words of exactly one length.
fn words_of_length(count: usize, length: usize, dice: &mut Dice) -> Vec<String> {
    let mut list = BTreeSet::new();
    while list.len() < count {
        let word = spelled(length, dice);
        if !KEY_WORDS.contains(&word.as_str()) {
            list.insert(word);
        }
    }
    list.into_iter().collect()
}

/// The label in which the lowest `names` bits are set.
fn all_names(names: usize) -> u32 {
    (0..names).fold(0, |label, bit| label | 1 << bit)
}

fn labels(states: usize, names: usize, dice: &mut Dice) -> Vec<u32> {
    (0..states)
        .map(|_| dice.roll() as u32 & all_names(names))
        .collect()
}

fn seconds(dice: &mut Dice) -> u16 {
    match dice.below(8) {
        0 => dice.pick(&[0, 1, 255, 256, 65534, 65535]),
        1 => dice.roll() as u16,
        _ => dice.between(1, 60) as u16,
    }
}

/// Steps in order: one out of each state, and so many more as asked for, or fewer.
fn steps(states: usize, more: usize, dice: &mut Dice) -> Vec<Step> {
    let mut map = BTreeMap::new();
    for from in 0..states {
        map.insert((from, dice.below(states)), seconds(dice));
    }
    for _ in 0..more {
        map.insert((dice.below(states), dice.below(states)), seconds(dice));
    }
    map.into_iter()
        .map(|((from, to), seconds)| Step {
            from: from as u16,
            to: to as u16,
            seconds,
        })
        .collect()
}

/// The first so many of all the steps there could be, `width` out of each state.
fn full_steps(count: usize, width: usize, dice: &mut Dice) -> Vec<Step> {
    (0..count)
        .map(|place| Step {
            from: (place / width) as u16,
            to: (place % width) as u16,
            seconds: seconds(dice),
        })
        .collect()
}

fn draft(states: usize, names: usize, more: usize, dice: &mut Dice) -> Draft {
    let words = words(names, dice);
    let labels = labels(states, names, dice);
    Draft::new(&words, labels, steps(states, more, dice))
}

/// A good sheet: few or many states, few or many names, few or many steps.
fn good(dice: &mut Dice) -> Draft {
    let states = match dice.below(12) {
        0 => 1,
        1..=6 => dice.between(2, 8),
        7..=10 => dice.between(9, 60),
        _ => dice.between(61, 1024),
    };
    let names = match dice.below(8) {
        0 => 0,
        1 => 32,
        2 => dice.between(9, 31),
        _ => dice.between(1, 8),
    };
    let more = match dice.below(4) {
        0 => 0,
        1 => states,
        2 => 3 * states,
        _ => (states * states * 2).min(4000),
    };
    draft(states, names, more, dice)
}

// ---------------------------------------------------------------- limits

/// Sheets at the limits and one beyond them, with everything else in order.
fn limits(dice: &mut Dice) -> Vec<Vec<u8>> {
    let mut list = Vec::new();
    for (states, names) in [
        (1, 0),
        (1, 1),
        (1, 32),
        (2, 16),
        (2, 17),
        (3, 30),
        (3, 31),
        (4, 32),
        (32, 3),
        (341, 2),
        (342, 2),
        (512, 1),
        (513, 1),
        (1023, 5),
        (1024, 0),
        (1024, 32),
        (1025, 3),
        (5, 33),
    ] {
        list.push(draft_beyond(states, names, dice).bytes());
    }
    for (names, length) in [(32, 1), (32, 16), (1, 16), (11, 2)] {
        let words = words_of_length(names, length, dice);
        let labels = vec![all_names(names); 6];
        list.push(Draft::new(&words, labels, steps(6, 6, dice)).bytes());
    }
    let mut no_states = draft(4, 2, 4, dice);
    no_states.state_count = 0;
    no_states.labels.clear();
    list.push(no_states.bytes());
    for name in ["home", "aim"] {
        let words = [name.to_string(), "own".to_string()];
        let labels = labels(6, 2, dice);
        list.push(Draft::new(&words, labels, steps(6, 12, dice)).bytes());
    }
    let both = ["aim".to_string(), "home".to_string()];
    list.push(Draft::new(&both, vec![0, 1, 2, 3], steps(4, 8, dice)).bytes());
    for seconds in [0, 65535] {
        let alone = Step {
            from: 0,
            to: 0,
            seconds,
        };
        list.push(Draft::new(&[], vec![0], vec![alone]).bytes());
    }
    list
}

/// As `draft`, also with more than 32 names.
fn draft_beyond(states: usize, names: usize, dice: &mut Dice) -> Draft {
    let words = words(names, dice);
    let labels = labels(states, names.min(32), dice);
    Draft::new(&words, labels, steps(states, states, dice))
}

/// One state with this one name: each bad byte, and the first and last of the good ones,
/// at the start of the name, inside it and at its end.
fn edges_of_names() -> Vec<Vec<u8>> {
    let mut list = Vec::new();
    for byte in BAD_BYTES.iter().chain(b"09AZ_az") {
        for place in 0..3 {
            let mut draft = Draft::new(&["abc".to_string()], vec![1], vec![WAIT]);
            draft.names[0].word[place] = *byte;
            list.push(draft.bytes());
        }
    }
    list
}

/// One state that bears the last name there is, the first there is not, or number 31.
fn edges_of_labels() -> Vec<Vec<u8>> {
    let mut list = Vec::new();
    for names in [0, 1, 7, 8, 15, 16, 24, 31, 32] {
        let words: Vec<String> = (0..names).map(|number| format!("n{number}")).collect();
        for bit in [names.max(1) - 1, names.min(31), 31] {
            list.push(Draft::new(&words, vec![1 << bit], vec![WAIT]).bytes());
        }
    }
    list
}

/// Sheets with 65,535 steps, some of them damaged near the end.
fn large(dice: &mut Dice) -> Vec<Vec<u8>> {
    const MOST: usize = 65535;
    let dense = {
        let words = words(3, dice);
        Draft::new(&words, labels(256, 3, dice), full_steps(MOST, 256, dice))
    };
    let wide = {
        let words = words(32, dice);
        Draft::new(&words, labels(1024, 32, dice), full_steps(MOST, 64, dice))
    };
    let changed = |draft: &Draft, change: fn(&mut Step)| {
        let mut draft = draft.clone();
        change(&mut draft.steps[MOST - 1]);
        draft.bytes()
    };
    let mut swapped = wide.clone();
    swapped.steps.swap(MOST - 1, MOST - 2);
    let mut stuck = wide.clone();
    stuck.steps = full_steps(MOST, 65, dice);
    let mut short = dense.bytes();
    short.pop();
    let mut long = wide.bytes();
    long.push(0);
    vec![
        dense.bytes(),
        wide.bytes(),
        short,
        long,
        swapped.bytes(),
        stuck.bytes(),
        changed(&dense, |step| step.to = 256),
        changed(&dense, |step| step.to -= 1),
        changed(&wide, |step| step.from = 1024),
        changed(&wide, |step| step.seconds ^= 0x8000),
    ]
}

/// All beginnings of some small sheets, the empty file among them, and of the same sheets
/// with a rule broken, where it matters which of two faults is seen first.
fn beginnings(dice: &mut Dice) -> Vec<Vec<u8>> {
    let tiny = Draft::new(&[], vec![0], vec![WAIT]);
    let small = draft(3, 2, 2, dice);
    let mut whole = vec![tiny.bytes(), small.bytes(), draft(4, 5, 6, dice).bytes()];
    for broken in [
        Break::Mark,
        Break::NameByte,
        Break::KeyWord("SAT"),
        Break::NameLength(17),
        Break::LabelBit,
        Break::SameStep,
    ] {
        let mut draft = draft(3, 3, 3, dice);
        broken.apply(&mut draft, dice);
        whole.push(draft.bytes());
    }
    let cuts = whole
        .iter()
        .flat_map(|bytes| (0..bytes.len()).map(|end| bytes[..end].to_vec()));
    cuts.collect()
}

// ---------------------------------------------------------------- damage

/// A sheet with one byte changed, inserted or dropped, or with some bytes appended.
fn damaged(dice: &mut Dice) -> Vec<u8> {
    let (states, names) = (dice.between(1, 7), dice.between(0, 6));
    let mut bytes = draft(states, names, states, dice).bytes();
    let place = dice.below(bytes.len());
    let other = dice.pick(&[1, 2, 4, 8, 16, 32, 64, 128, 255]);
    match dice.below(4) {
        0 => bytes[place] ^= other,
        1 => bytes.insert(place, other),
        2 => {
            bytes.remove(place);
        }
        _ => bytes.extend(vec![other; dice.between(1, 8)]),
    }
    bytes
}

// ---------------------------------------------------------------- broken rules

/// One way to break a rule of docs/SHEETS.md.
#[derive(Clone, Copy)]
enum Break {
    Mark,
    Version(u16),
    StateCount(u16),
    NameCount(u8),
    NameLength(u8),
    NameByte,
    NameStart(u8),
    KeyWord(&'static str),
    SameName,
    LabelBit,
    From,
    To,
    SameStep,
    Descending,
    DescendingTo,
    StuckFirst,
    StuckMiddle,
    StuckLast,
    StuckSeveral,
    NoSteps,
    StepsUncounted,
    OneStepUncounted,
    StepCountPlus(u16),
    StepCountMost,
    Tail(usize),
    TailLikeStep,
}

/// The ways that are seen before the first step.
const EARLY_BREAKS: [Break; 35] = [
    Break::Mark,
    Break::Version(0),
    Break::Version(2),
    Break::Version(256),
    Break::Version(257),
    Break::StateCount(0),
    Break::StateCount(1025),
    Break::StateCount(65535),
    Break::NameCount(33),
    Break::NameCount(255),
    Break::NameLength(0),
    Break::NameLength(17),
    Break::NameLength(255),
    Break::NameByte,
    Break::NameByte,
    Break::NameByte,
    Break::NameStart(b'0'),
    Break::NameStart(b'9'),
    Break::NameStart(b'_'),
    Break::KeyWord("true"),
    Break::KeyWord("false"),
    Break::KeyWord("not"),
    Break::KeyWord("and"),
    Break::KeyWord("or"),
    Break::KeyWord("EF"),
    Break::KeyWord("AF"),
    Break::KeyWord("EG"),
    Break::KeyWord("AG"),
    Break::KeyWord("LOOP"),
    Break::KeyWord("SAT"),
    Break::SameName,
    Break::SameName,
    Break::LabelBit,
    Break::LabelBit,
    Break::LabelBit,
];

/// The ways that are seen at a step or behind the last one.
const LATE_BREAKS: [Break; 23] = [
    Break::From,
    Break::From,
    Break::To,
    Break::To,
    Break::SameStep,
    Break::SameStep,
    Break::Descending,
    Break::Descending,
    Break::DescendingTo,
    Break::DescendingTo,
    Break::StuckFirst,
    Break::StuckMiddle,
    Break::StuckLast,
    Break::StuckSeveral,
    Break::NoSteps,
    Break::StepsUncounted,
    Break::OneStepUncounted,
    Break::StepCountPlus(1),
    Break::StepCountPlus(300),
    Break::StepCountMost,
    Break::Tail(1),
    Break::Tail(7),
    Break::TailLikeStep,
];

impl Break {
    fn apply(self, draft: &mut Draft, dice: &mut Dice) {
        match self {
            Break::Mark => draft.mark[dice.below(3)] ^= dice.pick(&[1, 32, 128]),
            Break::Version(version) => draft.version = version,
            Break::StateCount(count) => draft.state_count = count,
            Break::NameCount(count) => draft.name_count = count,
            Break::NameLength(_)
            | Break::NameByte
            | Break::NameStart(_)
            | Break::KeyWord(_)
            | Break::SameName => self.apply_to_names(draft, dice),
            Break::LabelBit => set_label_bit(draft, dice),
            Break::From | Break::To | Break::SameStep | Break::Descending | Break::DescendingTo => {
                self.apply_to_steps(draft, dice)
            }
            Break::StuckFirst => draft.remove_steps_of(0),
            Break::StuckMiddle => {
                let middle = dice.between(1, draft.labels.len() - 2);
                draft.remove_steps_of(middle);
            }
            Break::StuckLast => draft.remove_steps_of(draft.labels.len() - 1),
            Break::StuckSeveral => {
                for _ in 0..2 {
                    draft.remove_steps_of(dice.below(draft.labels.len()));
                }
            }
            Break::NoSteps => {
                draft.steps.clear();
                draft.step_count = 0;
            }
            Break::StepsUncounted => draft.step_count = 0,
            Break::OneStepUncounted => draft.step_count = draft.step_count.wrapping_sub(1),
            Break::StepCountPlus(more) => draft.step_count = draft.step_count.wrapping_add(more),
            Break::StepCountMost => draft.step_count = 65535,
            Break::Tail(size) => draft.tail.extend((0..size).map(|_| dice.roll() as u8)),
            Break::TailLikeStep => {
                let last = draft.labels.len() as u8 - 1;
                draft.tail.extend([last, 0, last, 0, 1, 0]);
            }
        }
    }

    fn apply_to_names(self, draft: &mut Draft, dice: &mut Dice) {
        let place = dice.below(draft.names.len());
        let name = &mut draft.names[place];
        match self {
            Break::NameLength(length) => {
                let word = spelled(length.into(), dice);
                *name = Name::new(word.as_bytes());
            }
            Break::NameByte if !name.word.is_empty() => {
                let at = dice.below(name.word.len());
                name.word[at] = dice.pick(&BAD_BYTES);
            }
            Break::NameStart(byte) if !name.word.is_empty() => name.word[0] = byte,
            Break::KeyWord(key) => *name = Name::new(key.as_bytes()),
            Break::SameName => {
                let later = dice.between(1, draft.names.len() - 1);
                draft.names[later] = draft.names[dice.below(later)].clone();
            }
            _ => {}
        }
    }

    /// Breaks one rule about steps, in a way that leaves the others alone.
    fn apply_to_steps(self, draft: &mut Draft, dice: &mut Dice) {
        if draft.steps.is_empty() {
            return;
        }
        let states = draft.labels.len() as u16;
        let place = dice.below(draft.steps.len());
        let step = draft.steps[place];
        match self {
            Break::From => {
                let stray = Step {
                    from: dice.pick(&[states, states + 1, 65535]),
                    ..step
                };
                draft.insert_step(draft.steps.len(), stray);
            }
            Break::To => {
                let stray = Step {
                    to: dice.pick(&[states, states + 1, 65535]),
                    ..step
                };
                let behind = draft
                    .steps
                    .iter()
                    .rposition(|other| other.from == step.from);
                draft.insert_step(behind.unwrap_or(place) + 1, stray);
            }
            Break::SameStep => {
                let again = Step {
                    seconds: seconds(dice),
                    ..step
                };
                draft.insert_step(place + 1, again);
            }
            Break::Descending => swap_neighbours(draft, dice, |one, two| one.from != two.from),
            Break::DescendingTo => swap_neighbours(draft, dice, |one, two| one.from == two.from),
            _ => {}
        }
    }
}

/// Sets a bit that stands for no name in one label.
fn set_label_bit(draft: &mut Draft, dice: &mut Dice) {
    let names = draft.names.len();
    if names < 32 {
        let bit = if dice.one_in(2) {
            names
        } else {
            dice.between(names, 31)
        };
        let state = dice.below(draft.labels.len());
        draft.labels[state] |= 1 << bit;
    }
}

/// Swaps two steps that follow each other, some two that are as asked for.
fn swap_neighbours(draft: &mut Draft, dice: &mut Dice, alike: fn(&Step, &Step) -> bool) {
    let places: Vec<usize> = (1..draft.steps.len())
        .filter(|&place| alike(&draft.steps[place - 1], &draft.steps[place]))
        .collect();
    if !places.is_empty() {
        let place = dice.pick(&places);
        draft.steps.swap(place - 1, place);
    }
}

/// A good sheet in which every rule can be broken: 3 states or more, 2 to 31 names, and a
/// state with several steps.
fn breakable(dice: &mut Dice) -> Draft {
    let names = match dice.below(5) {
        0 => dice.between(7, 31),
        _ => dice.between(2, 6),
    };
    let states = dice.between(3, 9);
    draft(states, names, 2 * states, dice)
}

fn one_rule_broken(turn: usize, dice: &mut Dice) -> Vec<u8> {
    let mut draft = breakable(dice);
    let all: Vec<Break> = EARLY_BREAKS.into_iter().chain(LATE_BREAKS).collect();
    all[turn % all.len()].apply(&mut draft, dice);
    draft.bytes()
}

/// Two rules broken at once, and sometimes the sheet cut somewhere besides.
fn two_rules_broken(dice: &mut Dice) -> Vec<u8> {
    let mut draft = breakable(dice);
    let first = if dice.one_in(2) {
        dice.pick(&EARLY_BREAKS)
    } else {
        dice.pick(&LATE_BREAKS)
    };
    let second = if dice.one_in(3) {
        dice.pick(&EARLY_BREAKS)
    } else {
        dice.pick(&LATE_BREAKS)
    };
    first.apply(&mut draft, dice);
    second.apply(&mut draft, dice);
    let mut bytes = draft.bytes();
    if dice.one_in(5) {
        bytes.truncate(dice.below(bytes.len()));
    }
    bytes
}
