//! The second program: it answers `examine` and `rules` as the proved program does, and
//! shares no line with it. It is written from docs/MACHINES.md, docs/SHEETS.md,
//! docs/RULES.md, docs/FAULTS.md and docs/PROGRAM.md alone, so that where both print the
//! same, two separate readings of these documents agree.
//!
//!     second examine MACHINE
//!     second rules MACHINE FILE
//!
//! where MACHINE is sheet:FILE, ring:N,C,A, or pair and two of these.
//!
//! It also takes another way. A sheet is first cut into owned pieces. Then every rule
//! looks at all the pieces on its own and notes all it finds, each finding with the
//! offset up to which the bytes must have been read for it. The fault of the sheet is
//! the first of all these findings. A pair is built as the whole product graph. A rule
//! text is judged by a chart.

use std::collections::{BTreeMap, BTreeSet};
use std::env;
use std::ffi::{OsStr, OsString};
use std::fmt;
use std::fs;
use std::io::{self, Write};
use std::os::unix::ffi::OsStrExt;
use std::process::ExitCode;

#[path = "second/texts.rs"]
mod texts;

const MOST_STATES: usize = 1024;
const MOST_NAMES: usize = 32;
const LONGEST_NAME: usize = 16;
const KEY_WORDS: [&str; 11] = [
    "true", "false", "not", "and", "or", "EF", "AF", "EG", "AG", "LOOP", "SAT",
];

fn main() -> ExitCode {
    let words: Vec<OsString> = env::args_os().skip(1).collect();
    let words: Vec<&OsStr> = words.iter().map(OsString::as_os_str).collect();
    let answer = match answer(&words) {
        Ok(answer) => answer,
        Err(Trouble::Fault(fault)) => Answer {
            text: format!("{fault}\n"),
            good: false,
        },
        Err(Trouble::Refusal(why)) => {
            eprintln!("second: {why}");
            return ExitCode::FAILURE;
        }
    };
    match print(&answer.text) {
        Ok(()) if answer.good => ExitCode::SUCCESS,
        Ok(()) => ExitCode::FAILURE,
        Err(why) => {
            eprintln!("second: cannot print: {why}");
            ExitCode::FAILURE
        }
    }
}

fn print(text: &str) -> io::Result<()> {
    let mut out = io::stdout().lock();
    out.write_all(text.as_bytes())?;
    out.flush()
}

/// What to print, and whether there was nothing to refuse.
struct Answer {
    text: String,
    good: bool,
}

/// Why there is no machine, or no file of rules.
enum Trouble {
    Fault(Fault),
    Refusal(String),
}

// ---------------------------------------------------------------- the command line

/// One machine of the command line.
enum Source<'a> {
    Sheet(&'a OsStr),
    Ring { sectors: u64, turn: u64, aim: u64 },
}

fn answer(words: &[&OsStr]) -> Result<Answer, Trouble> {
    match words {
        [call, described @ ..] if *call == "examine" => Ok(Answer {
            text: described_by(described)?.to_string(),
            good: true,
        }),
        [call, described @ .., file] if *call == "rules" => {
            let machine = described_by(described)?;
            Ok(verdicts(&machine, &contents(file)?))
        }
        _ => Err(usage()),
    }
}

fn usage() -> Trouble {
    Trouble::Refusal(
        "say examine MACHINE or rules MACHINE FILE, where MACHINE is sheet:FILE, ring:N,C,A, or pair and two of these"
            .into(),
    )
}

fn described_by(words: &[&OsStr]) -> Result<Machine, Trouble> {
    match words {
        [pair, left, right] if *pair == "pair" => {
            let (left, right) = (source(left)?, source(right)?);
            Ok(pair_of(&machine(left)?, &machine(right)?))
        }
        [one] => machine(source(one)?),
        _ => Err(usage()),
    }
}

fn source(word: &OsStr) -> Result<Source<'_>, Trouble> {
    if let Some(file) = word.as_bytes().strip_prefix(b"sheet:") {
        return Ok(Source::Sheet(OsStr::from_bytes(file)));
    }
    word.to_str()
        .and_then(|word| word.strip_prefix("ring:"))
        .and_then(ring_numbers)
        .ok_or_else(|| Trouble::Refusal(format!("{word:?} is no machine")))
}

fn ring_numbers(text: &str) -> Option<Source<'_>> {
    let numbers: Option<Vec<u64>> = text.split(',').map(number).collect();
    match numbers?[..] {
        [sectors, turn, aim] => Some(Source::Ring { sectors, turn, aim }),
        _ => None,
    }
}

/// A number of decimal digits only, which `parse` alone would not ask for.
fn number(text: &str) -> Option<u64> {
    let plain = text.bytes().all(|byte| byte.is_ascii_digit());
    plain.then(|| text.parse().ok()).flatten()
}

fn machine(source: Source) -> Result<Machine, Trouble> {
    match source {
        Source::Ring { sectors, turn, aim } => Ok(ring(sectors, turn, aim)),
        Source::Sheet(file) => {
            let pieces = Pieces::of(&contents(file)?);
            match pieces.findings().first() {
                Some(finding) => Err(Trouble::Fault(finding.fault)),
                None => Ok(pieces.machine()),
            }
        }
    }
}

fn contents(file: &OsStr) -> Result<Vec<u8>, Trouble> {
    fs::read(file).map_err(|why| Trouble::Refusal(format!("cannot read {file:?}: {why}")))
}

// ---------------------------------------------------------------- rules

/// What is to be said of each line of a file of rules.
fn verdicts(machine: &Machine, file: &[u8]) -> Answer {
    let names: BTreeSet<&[u8]> = machine.names.iter().map(String::as_bytes).collect();
    let mut answer = Answer {
        text: String::new(),
        good: true,
    };
    for (number, line) in (1..).zip(file.split_inclusive(|byte| *byte == b'\n')) {
        let rule = line.strip_suffix(b"\n").unwrap_or(line);
        match texts::judge(rule, &|name| names.contains(name)) {
            Ok(()) => answer.text += &format!("{number}: ok\n"),
            Err(fault) => {
                answer.text += &format!("{number}: {}", marked(rule, fault));
                answer.good = false;
            }
        }
    }
    answer
}

/// A fault of a rule, and below it the rule with a mark at the fault's place.
fn marked(rule: &[u8], texts::Fault { place, number }: texts::Fault) -> String {
    let fault = Fault { number, place };
    let shown: String = rule.iter().copied().map(column).collect();
    format!("{fault}\n    {shown}\n    {:place$}^\n", "")
}

/// A byte as something that takes one column.
fn column(byte: u8) -> char {
    match byte {
        b' '..=b'~' => byte.into(),
        _ => '?',
    }
}

// ---------------------------------------------------------------- machines

/// A machine, spelled out: each state with the words it bears, each step with its seconds.
#[derive(Default)]
struct Machine {
    names: Vec<String>,
    borne: Vec<BTreeSet<String>>,
    steps: BTreeMap<(usize, usize), u64>,
}

impl fmt::Display for Machine {
    fn fmt(&self, out: &mut fmt::Formatter) -> fmt::Result {
        let (n, k, m) = (self.borne.len(), self.names.len(), self.steps.len());
        writeln!(out, "{n} states, {k} names, {m} steps")?;
        let listed = without_repeats(&self.names);
        for (state, borne) in self.borne.iter().enumerate() {
            write!(out, "state {state}:")?;
            for name in listed.iter().filter(|name| borne.contains(**name)) {
                write!(out, " {name}")?;
            }
            writeln!(out)?;
        }
        for ((from, to), seconds) in &self.steps {
            writeln!(out, "step {from} -> {to}: {seconds} seconds")?;
        }
        Ok(())
    }
}

/// The words of a list, each at its first place.
fn without_repeats(words: &[String]) -> Vec<&str> {
    let mut seen = BTreeSet::new();
    words
        .iter()
        .map(String::as_str)
        .filter(|word| seen.insert(*word))
        .collect()
}

fn ring(sectors: u64, turn: u64, aim: u64) -> Machine {
    if !(3..=360).contains(&sectors) || !(1..=3600).contains(&turn) || aim >= sectors {
        return Machine::default();
    }
    let (count, aim) = (sectors as usize, aim as usize);
    let mut borne = vec![BTreeSet::new(); count];
    borne[0].insert("home".to_string());
    borne[aim].insert("aim".to_string());
    let mut steps = BTreeMap::new();
    for here in 0..count {
        let next = (here + 1) % count;
        steps.insert((here, here), 1);
        steps.insert((here, next), turn);
        steps.insert((next, here), turn);
    }
    Machine {
        names: vec!["home".to_string(), "aim".to_string()],
        borne,
        steps,
    }
}

/// A state of a pair: the state on the left and the state on the right.
type Both = (usize, usize);

fn pair_of(left: &Machine, right: &Machine) -> Machine {
    let states = left.borne.len() * right.borne.len();
    let names = left.names.len() + right.names.len();
    if states > MOST_STATES || names > MOST_NAMES {
        return Machine::default();
    }
    let nodes: BTreeSet<Both> = (0..left.borne.len())
        .flat_map(|x| (0..right.borne.len()).map(move |y| (x, y)))
        .collect();
    let numbers: BTreeMap<Both, usize> = nodes.iter().copied().zip(0..).collect();
    Machine {
        names: left.names.iter().chain(&right.names).cloned().collect(),
        borne: nodes
            .iter()
            .map(|node| borne_by_both(left, right, *node))
            .collect(),
        steps: product(left, right)
            .into_iter()
            .map(|((from, to), seconds)| ((numbers[&from], numbers[&to]), seconds))
            .collect(),
    }
}

/// What a state of a pair bears: a name that the left side knows is the left side's.
fn borne_by_both(left: &Machine, right: &Machine, (x, y): Both) -> BTreeSet<String> {
    let of_right = right.borne[y]
        .iter()
        .filter(|name| !left.names.contains(name));
    left.borne[x].iter().chain(of_right).cloned().collect()
}

/// All steps of a pair: each step of one side beside each state of the other.
fn product(left: &Machine, right: &Machine) -> BTreeMap<(Both, Both), u64> {
    let mut steps = BTreeMap::new();
    let mut offer = |from: Both, to: Both, seconds: u64| {
        let least = steps.entry((from, to)).or_insert(seconds);
        *least = seconds.min(*least);
    };
    for (&(from, to), &seconds) in &left.steps {
        for y in 0..right.borne.len() {
            offer((from, y), (to, y), seconds);
        }
    }
    for (&(from, to), &seconds) in &right.steps {
        for x in 0..left.borne.len() {
            offer((x, from), (x, to), seconds);
        }
    }
    steps
}

// ---------------------------------------------------------------- faults

#[derive(Clone, Copy, PartialEq, Eq, PartialOrd, Ord)]
struct Fault {
    number: u8,
    place: usize,
}

impl fmt::Display for Fault {
    fn fmt(&self, out: &mut fmt::Formatter) -> fmt::Result {
        let words = match self.number {
            1 => "this is no mode sheet of version 1",
            2 => "the bytes end inside a field",
            3 => "a sheet has 1 to 1024 states and at most 32 names",
            4 => "this name, label or step breaks its rule",
            5 => "this state has no step out",
            6 => "bytes follow the last step",
            7 => "a rule has at most 255 bytes",
            8 => "no word starts with this byte",
            9 => "no rule goes on like this",
            10 => "the machine does not know this name",
            11 => "a rule has at most 64 parts",
            _ => "an expression has at most 31 letters",
        };
        let Fault { number, place } = self;
        let layer = if *number < 7 { 1 } else { 2 };
        write!(out, "fault {number} layer {layer} place {place}: {words}")
    }
}

/// A fault, and the offset up to which the bytes must be read before it can be seen.
///
/// The order of findings is the order of judging. Faults 5 and 6, and a fault of the last
/// step, are due at the same offset; there the lower number comes first. A piece that is
/// cut short is due where it ought to have ended, hence after all the complete ones.
#[derive(PartialEq, Eq, PartialOrd, Ord)]
struct Finding {
    due: usize,
    fault: Fault,
}

fn finding(due: usize, number: u8, place: usize) -> Finding {
    Finding {
        due,
        fault: Fault { number, place },
    }
}

// ---------------------------------------------------------------- sheets

#[derive(Clone, Copy, PartialEq, Eq)]
enum Part {
    Mark,
    Version,
    StateCount,
    NameCount,
    NameLength,
    Word,
    Label,
    StepCount,
    Step,
}

/// A field or an entry of a sheet; a name is two pieces, its length byte and its word.
struct Piece {
    part: Part,
    start: usize,
    end: usize,
    bytes: Vec<u8>,
}

impl Piece {
    fn is_complete(&self) -> bool {
        self.bytes.len() == self.end - self.start
    }

    /// The number that the bytes make, the lowest byte first.
    fn number(&self) -> usize {
        self.bytes
            .iter()
            .rev()
            .fold(0, |high, low| high << 8 | usize::from(*low))
    }

    /// From, to and seconds, if this is a step.
    fn step(&self) -> (usize, usize, u64) {
        let half = |at: usize| u16::from_le_bytes([self.bytes[at], self.bytes[at + 1]]);
        (half(0).into(), half(2).into(), half(4).into())
    }
}

/// A sheet in pieces, up to and with the first one that is cut short.
struct Pieces {
    list: Vec<Piece>,
    size: usize,
}

impl Pieces {
    fn of(bytes: &[u8]) -> Pieces {
        let mut knife = Knife {
            rest: bytes,
            done: 0,
            list: Vec::new(),
        };
        // Where a piece is cut short there is nothing more to cut; the list says so.
        let _ = knife.cut_sheet();
        Pieces {
            list: knife.list,
            size: bytes.len(),
        }
    }

    /// The complete pieces of one kind.
    fn all(&self, part: Part) -> impl Iterator<Item = &Piece> {
        self.list
            .iter()
            .filter(move |piece| piece.part == part && piece.is_complete())
    }

    fn number_of(&self, part: Part) -> Option<usize> {
        self.all(part).next().map(Piece::number)
    }

    fn findings(&self) -> BTreeSet<Finding> {
        let rules = [
            Pieces::cut_short,
            Pieces::bad_beginning,
            Pieces::bad_counts,
            Pieces::bad_lengths,
            Pieces::bad_words,
            Pieces::bad_labels,
            Pieces::bad_steps,
            Pieces::bad_end,
        ];
        rules.iter().flat_map(|rule| rule(self)).collect()
    }

    fn cut_short(&self) -> Vec<Finding> {
        let cut = self.list.iter().filter(|piece| !piece.is_complete());
        cut.map(|piece| finding(piece.end, 2, self.size)).collect()
    }

    fn bad_beginning(&self) -> Vec<Finding> {
        let mark = self.all(Part::Mark).filter(|piece| piece.bytes != b"MOD");
        let version = self.all(Part::Version).filter(|piece| piece.number() != 1);
        mark.chain(version)
            .map(|piece| finding(piece.end, 1, piece.start))
            .collect()
    }

    fn bad_counts(&self) -> Vec<Finding> {
        let states = self
            .all(Part::StateCount)
            .filter(|piece| !(1..=MOST_STATES).contains(&piece.number()));
        let names = self
            .all(Part::NameCount)
            .filter(|piece| piece.number() > MOST_NAMES);
        states
            .chain(names)
            .map(|piece| finding(piece.end, 3, piece.start))
            .collect()
    }

    fn bad_lengths(&self) -> Vec<Finding> {
        self.all(Part::NameLength)
            .filter(|piece| !(1..=LONGEST_NAME).contains(&piece.number()))
            .map(|piece| finding(piece.end, 4, piece.start))
            .collect()
    }

    fn bad_words(&self) -> Vec<Finding> {
        let mut earlier = BTreeSet::new();
        self.all(Part::NameLength)
            .zip(self.all(Part::Word))
            .filter(|(_, word)| !earlier.insert(&word.bytes) || !is_name(&word.bytes))
            .map(|(length, word)| finding(word.end, 4, length.start))
            .collect()
    }

    fn bad_labels(&self) -> Vec<Finding> {
        let names = self.number_of(Part::NameCount).unwrap_or(0);
        let bears_unlisted = |label: usize| (names..MOST_NAMES).any(|bit| label >> bit & 1 == 1);
        self.all(Part::Label)
            .filter(|piece| bears_unlisted(piece.number()))
            .map(|piece| finding(piece.end, 4, piece.start))
            .collect()
    }

    fn bad_steps(&self) -> Vec<Finding> {
        let states = self.number_of(Part::StateCount).unwrap_or(0);
        let ends = |piece: &Piece| {
            let (from, to, _) = piece.step();
            (from, to)
        };
        let astray = self
            .all(Part::Step)
            .filter(|piece| ends(piece).0 >= states || ends(piece).1 >= states);
        let out_of_order = self
            .all(Part::Step)
            .zip(self.all(Part::Step).skip(1))
            .filter(|(before, piece)| ends(before) >= ends(piece))
            .map(|(_, piece)| piece);
        astray
            .chain(out_of_order)
            .map(|piece| finding(piece.end, 4, piece.start))
            .collect()
    }

    /// The states that no step leaves, and the bytes behind the last step.
    fn bad_end(&self) -> Vec<Finding> {
        let Some(count) = self.all(Part::StepCount).next() else {
            return Vec::new();
        };
        let end = count.end + 6 * count.number();
        let states = self.number_of(Part::StateCount).unwrap_or(0);
        let left: BTreeSet<usize> = self.all(Part::Step).map(|piece| piece.step().0).collect();
        let stuck = (0..states).filter(|state| !left.contains(state));
        stuck
            .map(|state| finding(end, 5, state))
            .chain((end < self.size).then(|| finding(end, 6, end)))
            .collect()
    }

    /// The machine that these pieces describe, if there is nothing to find in them.
    fn machine(&self) -> Machine {
        let names: Vec<String> = self
            .all(Part::Word)
            .map(|piece| String::from_utf8_lossy(&piece.bytes).into_owned())
            .collect();
        let borne_by = |label: usize| {
            let borne = names
                .iter()
                .enumerate()
                .filter(|(bit, _)| label >> bit & 1 == 1);
            borne.map(|(_, name)| name.clone()).collect()
        };
        let borne = self
            .all(Part::Label)
            .map(|piece| borne_by(piece.number()))
            .collect();
        let steps = self
            .all(Part::Step)
            .map(|piece| {
                let (from, to, seconds) = piece.step();
                ((from, to), seconds)
            })
            .collect();
        Machine {
            names,
            borne,
            steps,
        }
    }
}

fn is_name(word: &[u8]) -> bool {
    let starts_well = word.first().is_some_and(u8::is_ascii_alphabetic);
    let goes_on_well = word
        .iter()
        .all(|byte| byte.is_ascii_alphanumeric() || *byte == b'_');
    starts_well && goes_on_well && KEY_WORDS.iter().all(|key| key.as_bytes() != word)
}

/// Cuts a sheet into pieces.
struct Knife<'a> {
    rest: &'a [u8],
    done: usize,
    list: Vec<Piece>,
}

impl Knife<'_> {
    /// Cuts off the next piece. Nothing is returned for one that is cut short.
    fn cut(&mut self, part: Part, size: usize) -> Option<&Piece> {
        let (bytes, rest) = self.rest.split_at(size.min(self.rest.len()));
        let start = self.done;
        self.rest = rest;
        self.done += bytes.len();
        self.list.push(Piece {
            part,
            start,
            end: start + size,
            bytes: bytes.to_vec(),
        });
        self.list.last().filter(|piece| piece.is_complete())
    }

    fn cut_sheet(&mut self) -> Option<()> {
        self.cut(Part::Mark, 3)?;
        self.cut(Part::Version, 2)?;
        let states = self.cut(Part::StateCount, 2)?.number();
        let names = self.cut(Part::NameCount, 1)?.number();
        for _ in 0..names {
            let length = self.cut(Part::NameLength, 1)?.number();
            self.cut(Part::Word, length)?;
        }
        for _ in 0..states {
            self.cut(Part::Label, 4)?;
        }
        let steps = self.cut(Part::StepCount, 2)?.number();
        for _ in 0..steps {
            self.cut(Part::Step, 6)?;
        }
        Some(())
    }
}
