//! Asks the proved program and the second program the same questions and compares what
//! they answer: what they print, byte by byte, their exit status, and how many lines they
//! write on stderr.
//!
//!     compare PROVED SECOND SHEETS TEXTS DOME WORK
//!
//! PROVED and SECOND are the two programs, SHEETS is a folder of sheets and TEXTS one of
//! rules, DOME is the sheet that docs/SHEETS.md works through, and WORK is a folder for
//! files of this program's own. tests/compare builds everything and calls it.

use std::collections::BTreeMap;
use std::env;
use std::ffi::OsString;
use std::fmt;
use std::fs;
use std::io::{self, Read};
use std::path::{Path, PathBuf};
use std::process::{Child, Command, ExitCode, Stdio};
use std::sync::atomic::{AtomicUsize, Ordering};
use std::sync::Mutex;
use std::thread;
use std::time::{Duration, Instant};

#[path = "compare/rules.rs"]
mod rules;

/// A program that takes longer than this for one question is stopped.
const PATIENCE: Duration = Duration::from_secs(120);
/// Once so many were stopped, no more questions are put, and each counts as a failure.
const MOST_STOPPED: usize = 3;

const SHOWN: usize = 10;
const FEWEST_SHEETS: usize = 2400;
const FEWEST_RINGS: usize = 200;
const FEWEST_PAIRS: usize = 200;

/// What the worked sheet of docs/SHEETS.md says, as a program has to print it.
const DOME: &str = "\
5 states, 4 names, 8 steps
state 0: shut
state 1: shut turn
state 2: turn
state 3: open
state 4: open look
step 0 -> 0: 1 seconds
step 0 -> 1: 5 seconds
step 1 -> 2: 12 seconds
step 1 -> 3: 40 seconds
step 2 -> 3: 6 seconds
step 3 -> 4: 3 seconds
step 4 -> 0: 30 seconds
step 4 -> 3: 2 seconds
";

fn main() -> ExitCode {
    let words: Vec<PathBuf> = env::args_os().skip(1).map(PathBuf::from).collect();
    let [proved, second, sheets, texts, dome, work] = &words[..] else {
        eprintln!("compare: say compare PROVED SECOND SHEETS TEXTS DOME WORK");
        return ExitCode::FAILURE;
    };
    let programs = Programs {
        proved,
        second,
        stopped: AtomicUsize::new(0),
    };
    let files = Files {
        sheets,
        texts,
        dome,
        work,
    };
    match compare_all(&programs, &files) {
        Ok(0) => ExitCode::SUCCESS,
        Ok(_) => ExitCode::FAILURE,
        Err(why) => {
            eprintln!("compare: {why}");
            ExitCode::FAILURE
        }
    }
}

struct Files<'a> {
    sheets: &'a Path,
    texts: &'a Path,
    dome: &'a Path,
    work: &'a Path,
}

/// Compares everything, prints the report, and says how many cases failed.
fn compare_all(programs: &Programs, files: &Files) -> io::Result<usize> {
    let mut report = Report::default();
    compare_machines(programs, files, &mut report)?;
    rules::compare(programs, files, &mut report)?;
    report.print();
    Ok(report.failed)
}

fn compare_machines(programs: &Programs, files: &Files, report: &mut Report) -> io::Result<()> {
    report.add("worked sheet", &programs.verdicts(&worked_cases(files)?)?);
    let sheet_verdicts = programs.verdicts(&sheet_cases(files.sheets)?)?;
    report.add("sheets", &sheet_verdicts);
    let ring_verdicts = programs.verdicts(&ring_cases())?;
    report.add("rings", &ring_verdicts);
    let sides = Sides::of(&sheet_verdicts);
    let pair_verdicts = programs.verdicts(&pair_cases(&sides))?;
    report.add("pairs", &pair_verdicts);
    report.add("bad arguments", &programs.verdicts(&bad_cases(files))?);
    report.ask_for("sheets enough", sheet_verdicts.len() >= FEWEST_SHEETS);
    report.ask_for("rings enough", ring_verdicts.len() >= FEWEST_RINGS);
    report.ask_for("pairs enough", pair_verdicts.len() >= FEWEST_PAIRS);
    let machines = [Outcome::Good, Outcome::Empty];
    let faults: Vec<Outcome> = (1..=6).map(Outcome::Fault).collect();
    let of_sheets = has_all(&sheet_verdicts, &[&machines[..1], &faults].concat());
    report.ask_for("sheets of every outcome", of_sheets);
    report.ask_for(
        "rings with and without states",
        has_all(&ring_verdicts, &machines),
    );
    let of_pairs = has_all(&pair_verdicts, &[&machines[..], &faults].concat());
    report.ask_for("pairs of every outcome", of_pairs);
    Ok(())
}

/// Whether each of these outcomes occurred.
fn has_all(verdicts: &[Verdict], outcomes: &[Outcome]) -> bool {
    let has = |outcome: &Outcome| verdicts.iter().any(|verdict| verdict.outcome == *outcome);
    outcomes.iter().all(has)
}

// ---------------------------------------------------------------- asking

struct Programs<'a> {
    proved: &'a Path,
    second: &'a Path,
    stopped: AtomicUsize,
}

/// One question: the words behind the program's name, and what it has to print where that
/// is known beforehand.
struct Case {
    words: Vec<String>,
    expected: Option<String>,
}

impl Case {
    fn new(words: &[&str]) -> Case {
        Case {
            words: words.iter().map(|word| word.to_string()).collect(),
            expected: None,
        }
    }

    fn expecting(self, text: &str) -> Case {
        Case {
            expected: Some(text.to_string()),
            ..self
        }
    }

    /// Whether the answer is about rules and not about a machine.
    fn asks_of_rules(&self) -> bool {
        self.words.first().is_some_and(|call| call == "rules")
    }
}

fn case<const N: usize>(machine: [&str; N]) -> Case {
    Case::new(&[&["examine"], &machine[..]].concat())
}

/// What a program answered. One that was stopped or not asked has no status.
#[derive(Default, PartialEq, Eq)]
struct Answer {
    out: Vec<u8>,
    status: Option<i32>,
    complaints: usize,
}

#[derive(Clone, Copy, PartialEq, Eq, PartialOrd, Ord)]
enum Outcome {
    Good,
    Empty,
    Fault(u8),
    Marked,
    Refused,
    Odd,
}

/// What came of a case. All but the difference is what the second program says.
struct Verdict {
    words: Vec<String>,
    outcome: Outcome,
    machine: Machine,
    difference: Option<String>,
}

/// What is asked about machines when sides of pairs are chosen.
#[derive(Default)]
struct Machine {
    states: usize,
    names: usize,
    bears_home: bool,
}

impl Machine {
    fn printed(out: &[u8]) -> Machine {
        let (states, names) = counts(out).unwrap_or((0, 0));
        Machine {
            states,
            names,
            bears_home: out
                .windows(6)
                .any(|part| part == b" home " || part == b" home\n"),
        }
    }
}

impl Verdict {
    fn of(case: &Case, proved: &Answer, second: &Answer) -> Verdict {
        let outcome = second.outcome(case);
        Verdict {
            words: case.words.clone(),
            outcome,
            machine: Machine::printed(&second.out),
            difference: difference(proved, second, outcome, case),
        }
    }

    /// The machine that was asked for, if it is one word.
    fn word(&self) -> &str {
        &self.words[1]
    }
}

impl Programs<'_> {
    fn verdicts(&self, cases: &[Case]) -> io::Result<Vec<Verdict>> {
        self.ask_all(cases, Verdict::of)
    }

    /// Asks all cases, several at a time, and returns what is made of the two answers to
    /// each, in their order.
    fn ask_all<T: Send>(
        &self,
        cases: &[Case],
        make: impl Fn(&Case, &Answer, &Answer) -> T + Sync,
    ) -> io::Result<Vec<T>> {
        let next = AtomicUsize::new(0);
        let made = Mutex::new(BTreeMap::new());
        let workers = thread::available_parallelism().map_or(2, usize::from);
        thread::scope(|scope| {
            for _ in 0..workers {
                scope.spawn(|| loop {
                    let place = next.fetch_add(1, Ordering::Relaxed);
                    let Some(case) = cases.get(place) else { break };
                    let answers = self.ask_both(case);
                    let result = answers.map(|(proved, second)| make(case, &proved, &second));
                    made.lock().expect("no worker panics").insert(place, result);
                });
            }
        });
        let made = made.into_inner().expect("no worker panics");
        made.into_values().collect()
    }

    fn ask_both(&self, case: &Case) -> io::Result<(Answer, Answer)> {
        Ok((self.ask(self.proved, case)?, self.ask(self.second, case)?))
    }

    fn ask(&self, program: &Path, case: &Case) -> io::Result<Answer> {
        if self.stopped.load(Ordering::Relaxed) >= MOST_STOPPED {
            return Ok(Answer::default());
        }
        let mut child = Command::new(program)
            .args(case.words.iter().map(OsString::from))
            .stdin(Stdio::null())
            .stdout(Stdio::piped())
            .stderr(Stdio::piped())
            .spawn()
            .map_err(|why| io::Error::new(why.kind(), format!("{}: {why}", program.display())))?;
        let (out, complaints) = (child.stdout.take(), child.stderr.take());
        thread::scope(|scope| {
            let out = scope.spawn(|| all_of(out));
            let complaints = scope.spawn(|| all_of(complaints));
            let status = self.wait(&mut child)?;
            let complaints = complaints.join().expect("no reader panics")?;
            Ok(Answer {
                out: out.join().expect("no reader panics")?,
                status,
                complaints: String::from_utf8_lossy(&complaints).lines().count(),
            })
        })
    }

    /// Waits for a program's end, or stops it.
    fn wait(&self, child: &mut Child) -> io::Result<Option<i32>> {
        let start = Instant::now();
        let mut pause = Duration::from_micros(50);
        loop {
            if let Some(status) = child.try_wait()? {
                return Ok(status.code());
            }
            if start.elapsed() > PATIENCE {
                self.stopped.fetch_add(1, Ordering::Relaxed);
                child.kill()?;
                return Ok(child.wait()?.code());
            }
            thread::sleep(pause);
            pause = (2 * pause).min(Duration::from_millis(10));
        }
    }
}

fn all_of(stream: Option<impl Read>) -> io::Result<Vec<u8>> {
    let mut bytes = Vec::new();
    if let Some(mut stream) = stream {
        stream.read_to_end(&mut bytes)?;
    }
    Ok(bytes)
}

impl Answer {
    fn outcome(&self, case: &Case) -> Outcome {
        match (self.status, self.complaints) {
            (Some(1), 1) if self.out.is_empty() => return Outcome::Refused,
            (Some(0 | 1), 0) => {}
            _ => return Outcome::Odd,
        }
        let found = match self.status {
            Some(1) if self.out.starts_with(b"fault ") => {
                fault_number(&self.out).map(Outcome::Fault)
            }
            _ if case.asks_of_rules() => rules::outcome(self),
            Some(0) => counts(&self.out).map(|(states, _)| match states {
                0 => Outcome::Empty,
                _ => Outcome::Good,
            }),
            _ => None,
        };
        found.unwrap_or(Outcome::Odd)
    }

    /// How the program ended, for reading.
    fn end(&self) -> String {
        let complaints = self.complaints;
        match self.status {
            Some(status) => format!("status {status}, {complaints} lines on stderr"),
            None => format!("stopped or not asked, {complaints} lines on stderr"),
        }
    }
}

/// States and names by the first line of a machine.
fn counts(out: &[u8]) -> Option<(usize, usize)> {
    let out = std::str::from_utf8(out).ok()?;
    let words: Vec<&str> = out.lines().next()?.split(' ').collect();
    match words[..] {
        [states, "states,", names, "names,", _, "steps"] => {
            Some((states.parse().ok()?, names.parse().ok()?))
        }
        _ => None,
    }
}

/// The number of a fault that is all there is.
fn fault_number(out: &[u8]) -> Option<u8> {
    let line = std::str::from_utf8(out).ok()?.strip_suffix('\n')?;
    let (number, rest) = line.strip_prefix("fault ")?.split_once(' ')?;
    let plain = rest.starts_with("layer 1 place ") && !rest.contains('\n');
    number.parse().ok().filter(|_| plain)
}

/// What is wrong with the two answers, if anything is.
fn difference(proved: &Answer, second: &Answer, outcome: Outcome, case: &Case) -> Option<String> {
    if proved != second {
        let (ours, theirs) = first_difference(&second.out, &proved.out);
        return Some(format!(
            "proved: {theirs} ({})\n    second: {ours} ({})",
            proved.end(),
            second.end()
        ));
    }
    if outcome == Outcome::Odd {
        return Some(format!("both give no proper answer ({})", second.end()));
    }
    match &case.expected {
        Some(text) if text.as_bytes() != second.out => Some("not what the documents say".into()),
        _ => None,
    }
}

/// The first lines that differ, for reading.
fn first_difference(one: &[u8], two: &[u8]) -> (String, String) {
    let lines = |out: &[u8]| -> Vec<String> {
        let text = String::from_utf8_lossy(out);
        text.split_inclusive('\n')
            .map(|line| format!("{line:?}"))
            .collect()
    };
    let (one, two) = (lines(one), lines(two));
    let longer = one.len().max(two.len());
    let differing = (0..longer).find(|&place| one.get(place) != two.get(place));
    let show = |lines: &[String]| match differing {
        None => "the same text".to_string(),
        Some(place) => {
            let line = lines.get(place).map_or("nothing", String::as_str);
            format!("line {}: {line}", place + 1)
        }
    };
    (show(&one), show(&two))
}

// ---------------------------------------------------------------- reporting

#[derive(Default)]
struct Report {
    lines: Vec<String>,
    differences: Vec<String>,
    passed: usize,
    failed: usize,
}

impl Report {
    fn add(&mut self, kind: &str, verdicts: &[Verdict]) {
        let mut tally: BTreeMap<Outcome, usize> = BTreeMap::new();
        for verdict in verdicts {
            *tally.entry(verdict.outcome).or_default() += 1;
            if let Some(difference) = &verdict.difference {
                let words = verdict.words.join(" ");
                self.differences
                    .push(format!("{kind}: {words}\n    {difference}"));
            }
        }
        let agreed = verdicts
            .iter()
            .filter(|verdict| verdict.difference.is_none())
            .count();
        self.passed += agreed;
        self.failed += verdicts.len() - agreed;
        let tally: Vec<String> = tally
            .iter()
            .map(|(outcome, count)| format!("{count} {outcome}"))
            .collect();
        let (all, tally) = (verdicts.len(), tally.join(", "));
        self.lines
            .push(format!("{kind}: {agreed} of {all} agreed; {tally}"));
    }

    /// A case about the cases: that there were enough of them.
    fn ask_for(&mut self, what: &str, holds: bool) {
        if holds {
            self.passed += 1;
        } else {
            self.failed += 1;
            self.lines.push(format!("missing: {what}"));
        }
    }

    fn print(&self) {
        for difference in self.differences.iter().take(SHOWN) {
            println!("{difference}");
        }
        if self.differences.len() > SHOWN {
            println!("and {} more differences", self.differences.len() - SHOWN);
        }
        for line in &self.lines {
            println!("{line}");
        }
        println!("{} passed, {} failed", self.passed, self.failed);
    }
}

impl fmt::Display for Outcome {
    fn fmt(&self, out: &mut fmt::Formatter) -> fmt::Result {
        match self {
            Outcome::Good => write!(out, "good"),
            Outcome::Empty => write!(out, "without states"),
            Outcome::Fault(number) => write!(out, "fault {number}"),
            Outcome::Marked => write!(out, "with refused rules"),
            Outcome::Refused => write!(out, "refused"),
            Outcome::Odd => write!(out, "odd"),
        }
    }
}

// ---------------------------------------------------------------- the cases

fn sheet(file: &Path) -> String {
    format!("sheet:{}", file.display())
}

/// The worked sheet, without its last byte, and with one byte more.
fn worked_cases(files: &Files) -> io::Result<Vec<Case>> {
    let bytes = fs::read(files.dome)?;
    let (short, long) = (files.work.join("short.mod"), files.work.join("long.mod"));
    fs::write(&short, &bytes[..bytes.len().saturating_sub(1)])?;
    fs::write(&long, [&bytes[..], &[0]].concat())?;
    Ok(vec![
        case([&sheet(files.dome)]).expecting(DOME),
        case([&sheet(&short)])
            .expecting("fault 2 layer 1 place 97: the bytes end inside a field\n"),
        case([&sheet(&long)]).expecting("fault 6 layer 1 place 98: bytes follow the last step\n"),
    ])
}

fn sheet_cases(sheets: &Path) -> io::Result<Vec<Case>> {
    let mut files: Vec<PathBuf> = fs::read_dir(sheets)?
        .map(|entry| Ok(entry?.path()))
        .collect::<io::Result<_>>()?;
    files.sort();
    Ok(files
        .iter()
        .map(|file| case([sheet(file).as_str()]))
        .collect())
}

fn ring_cases() -> Vec<Case> {
    let most = u64::MAX;
    let mut rings: Vec<String> = Vec::new();
    for n in [
        0,
        1,
        2,
        3,
        4,
        17,
        359,
        360,
        361,
        1024,
        65539,
        1 << 32 | 3,
        most,
    ] {
        for c in [0, 1, 2, 3600, 3601, 65537, 1 << 32 | 1, most] {
            for a in [0, 1, n.wrapping_sub(1), n, n.wrapping_add(1), most] {
                rings.push(format!("ring:{n},{c},{a}"));
            }
        }
    }
    for n in 3..=60 {
        rings.push(format!("ring:{n},{},{}", 1 + n * 59, n * n / 7 % n));
    }
    for zeros in [
        "ring:003,1,0",
        "ring:3,0001,00",
        "ring:5,2,000000000000000000000000000004",
    ] {
        rings.push(zeros.to_string());
    }
    rings.iter().map(|ring| case([ring.as_str()])).collect()
}

/// What the sides of pairs are taken from: sheets, by what the second program says of them.
struct Sides<'a> {
    good: Vec<&'a Verdict>,
    faulty: Vec<&'a Verdict>,
}

impl Sides<'_> {
    fn of(verdicts: &[Verdict]) -> Sides<'_> {
        let faulty = |verdict: &&Verdict| matches!(verdict.outcome, Outcome::Fault(_));
        Sides {
            good: verdicts
                .iter()
                .filter(|verdict| verdict.outcome == Outcome::Good)
                .collect(),
            faulty: verdicts.iter().filter(faulty).collect(),
        }
    }

    /// Some good sheets, spread over all of them.
    fn some(&self, count: usize, fits: impl Fn(&Verdict) -> bool) -> Vec<&str> {
        let fitting: Vec<&str> = self
            .good
            .iter()
            .filter(|verdict| fits(verdict))
            .map(|verdict| verdict.word())
            .collect();
        spread(&fitting, count)
    }

    /// Some pairs of good sheets with such counts of states and names together.
    fn some_pairs(&self, count: usize, fits: impl Fn(usize, usize) -> bool) -> Vec<Case> {
        let mut pairs = Vec::new();
        for left in &self.good {
            for right in &self.good {
                if fits(
                    left.machine.states * right.machine.states,
                    left.machine.names + right.machine.names,
                ) {
                    pairs.push((left.word(), right.word()));
                }
            }
        }
        let pairs = spread(&pairs, count);
        pairs
            .into_iter()
            .map(|(left, right)| case(["pair", left, right]))
            .collect()
    }
}

/// So many of a list, at even distances.
fn spread<T: Copy>(list: &[T], count: usize) -> Vec<T> {
    let count = count.min(list.len());
    (0..count)
        .map(|turn| list[turn * list.len() / count])
        .collect()
}

fn pair_cases(sides: &Sides) -> Vec<Case> {
    let mut cases = ring_pairs();
    cases.extend(mixed_pairs(sides));
    cases.extend(sides.some_pairs(60, |states, names| states <= 200 && names <= 32));
    cases.extend(sides.some_pairs(20, |states, names| states == 1024 && names <= 32));
    cases.extend(sides.some_pairs(20, |states, names| {
        (1025..1100).contains(&states) && names <= 32
    }));
    cases.extend(sides.some_pairs(10, |states, _| states > 60000));
    cases.extend(sides.some_pairs(20, |states, names| states <= 300 && names == 32));
    cases.extend(sides.some_pairs(20, |states, names| states <= 300 && names == 33));
    cases.extend(sides.some_pairs(10, |states, names| states <= 300 && names == 64));
    cases.extend(home_pairs(sides));
    cases.extend(faulty_pairs(sides));
    cases
}

fn ring_pairs() -> Vec<Case> {
    let sizes = [2, 3, 4, 5, 31, 32, 33, 205, 256, 341, 342, 360, 361];
    let mut cases = Vec::new();
    for p in sizes {
        for q in sizes {
            let left = format!("ring:{p},{},{}", 1 + 3 * q, q % p);
            let right = format!("ring:{q},{},{}", 1 + p % 4, p * 2 % q);
            cases.push(case(["pair", &left, &right]));
        }
    }
    cases
}

/// A sheet beside a ring, either way round, also beside rings without states.
fn mixed_pairs(sides: &Sides) -> Vec<Case> {
    let rings = [
        "ring:3,40,1",
        "ring:7,1,0",
        "ring:16,3600,15",
        "ring:2,1,0",
        "ring:9,0,3",
    ];
    let sheets = sides.some(40, |verdict| verdict.machine.states <= 90);
    let edges = sides.some(10, |verdict| (30..=31).contains(&verdict.machine.names));
    let mut cases = Vec::new();
    for (turn, sheet) in sheets.into_iter().chain(edges).enumerate() {
        let ring = rings[turn % rings.len()];
        cases.push(case(["pair", sheet, ring]));
        cases.push(case(["pair", ring, sheet]));
    }
    cases
}

/// Both sides have the name `home`.
fn home_pairs(sides: &Sides) -> Vec<Case> {
    let sheets = sides.some(8, |verdict| {
        verdict.machine.bears_home && verdict.machine.states <= 30 && verdict.machine.names <= 12
    });
    let mut cases = Vec::new();
    for left in &sheets {
        cases.push(case(["pair", left, "ring:5,2,3"]));
        cases.push(case(["pair", "ring:4,9,0", left]));
        cases.extend(sheets.iter().map(|right| case(["pair", left, right])));
    }
    cases
}

/// A faulty sheet on the left, on the right, and on both sides.
fn faulty_pairs(sides: &Sides) -> Vec<Case> {
    let good = sides.some(7, |verdict| verdict.machine.states <= 20);
    let mut faulty: Vec<&str> = Vec::new();
    for number in 1..=6 {
        let of_number: Vec<&str> = sides
            .faulty
            .iter()
            .filter(|verdict| verdict.outcome == Outcome::Fault(number))
            .map(|verdict| verdict.word())
            .collect();
        faulty.extend(spread(&of_number, 2));
    }
    let mut cases = Vec::new();
    for (turn, bad) in faulty.iter().enumerate() {
        for other in ["ring:3,1,0", "ring:2,1,0"]
            .into_iter()
            .chain(spread(&good, 1 + turn % 3))
        {
            cases.push(case(["pair", bad, other]));
            cases.push(case(["pair", other, bad]));
        }
        cases.extend(faulty.iter().map(|right| case(["pair", bad, right])));
    }
    cases
}

/// Arguments that are none, and files that cannot be read.
fn bad_cases(files: &Files) -> Vec<Case> {
    let dome = sheet(files.dome);
    let folder = sheet(files.sheets);
    let missing = sheet(&files.sheets.join("none.mod"));
    let faulty = sheet(&files.work.join("short.mod"));
    let ring = "ring:3,1,0";
    let mut cases: Vec<Case> = [
        "",
        "ring",
        "ring:",
        "ring:3",
        "ring:3,1",
        "ring:3,1,",
        "ring:3,1,0,",
        "ring:3,1,0,0",
        "ring:,1,0",
        "ring:3,,0",
        "ring:,,",
        "ring:+3,1,0",
        "ring:3,+1,0",
        "ring:3,1,-0",
        "ring: 3,1,0",
        "ring:3, 1,0",
        "ring:3,1,0 ",
        "ring:3,1,0\n",
        "ring:3 1 0",
        "ring:3;1;0",
        "ring:0x3,1,0",
        "ring:3.0,1,0",
        "ring:3_0,1,0",
        "ring:1e1,1,0",
        "ring:a,b,c",
        "ring:\u{663},1,0",
        "Ring:3,1,0",
        "rings:3,1,0",
        "ring3,1,0",
        "3,1,0",
        "pair",
        "ring:18446744073709551616,1,0",
        "ring:3,18446744073709551616,0",
        "ring:3,1,18446744073709551616",
        "ring:18446744073709551619,1,0",
        "ring:340282366920938463463374607431768211459,1,0",
        "sheet",
        "sheet:",
        "Sheet:x",
        &folder,
        &missing,
        dome.trim_start_matches("sheet:"),
    ]
    .iter()
    .map(|word| case([*word]))
    .collect();
    cases.extend([
        case([]),
        case([ring, ring]),
        case(["pair", ring]),
        case(["pair", ring, ring, ring]),
        case([ring, "pair", ring]),
        case(["Pair", ring, ring]),
        case(["pair", "pair", ring]),
        case(["pair", ring, "pair"]),
        case(["pair", "pair", ring, ring, ring]),
        case(["pair", ring, "ring:3,1"]),
        case(["pair", "ring:3,1", ring]),
        case(["pair", ring, &missing]),
        case(["pair", &missing, ring]),
        case(["pair", &dome, &folder]),
        case(["pair", &missing, &missing]),
        case(["pair", &faulty, &missing]),
        case(["pair", &missing, &faulty]),
        case(["pair", &faulty, "ring:3,1"]),
    ]);
    cases.extend([
        Case::new(&[]),
        Case::new(&[ring]),
        Case::new(&["exam", ring]),
        Case::new(&["Examine", ring]),
        Case::new(&[ring, "examine"]),
    ]);
    cases
}
