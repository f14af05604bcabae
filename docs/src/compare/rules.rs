//! The part of the comparison that asks `rules`: many texts with one question, each of which
//! is a case of its own.

use super::{
    first_difference, sheet, Answer, Case, Files, Machine, Outcome, Programs, Report, Verdict,
};
use std::fs;
use std::io;
use std::path::Path;

const RING: &str = "ring:12,5,3";
/// A ring that has no states and no names.
const EMPTY: &str = "ring:2,1,0";

/// How many of the seeded texts there are at least, and how many of each outcome.
const FEWEST_TEXTS: usize = 25_000;
const FEWEST: [(Outcome, usize); 7] = [
    (Outcome::Good, 2_400),
    (Outcome::Fault(7), 1_800),
    (Outcome::Fault(8), 2_400),
    (Outcome::Fault(9), 12_000),
    (Outcome::Fault(10), 5_000),
    (Outcome::Fault(11), 200),
    (Outcome::Fault(12), 700),
];

pub fn compare(programs: &Programs, files: &Files, report: &mut Report) -> io::Result<()> {
    let worked = programs.verdicts(&worked_cases(files)?)?;
    report.add("worked rules", &worked);
    let bad = programs.verdicts(&bad_cases(files)?)?;
    report.add("bad arguments for rules", &bad);
    let (mut whole, mut single) = (Vec::new(), Vec::new());
    for texts in programs.ask_all(&seeded_cases(files), Texts::of)? {
        let texts = texts?;
        whole.push(texts.whole);
        single.extend(texts.single);
    }
    report.add("files of rules", &whole);
    report.add("rules", &single);
    report.ask_for("rules enough", single.len() >= FEWEST_TEXTS);
    for (outcome, fewest) in FEWEST {
        let such = single.iter().filter(|verdict| verdict.outcome == outcome);
        let what = format!("{fewest} rules of outcome: {outcome}");
        report.ask_for(&what, such.count() >= fewest);
    }
    Ok(())
}

// ---------------------------------------------------------------- answers

/// What a whole answer is, if it is one about rules.
pub fn outcome(answer: &Answer) -> Option<Outcome> {
    let outcomes: Option<Vec<Outcome>> = (1..)
        .zip(blocks(&answer.out))
        .map(|(number, block)| Some(read(block, number)?.outcome()))
        .collect();
    let good = outcomes?.iter().all(|outcome| *outcome == Outcome::Good);
    match (good, answer.status) {
        (true, Some(0)) => Some(Outcome::Good),
        (false, Some(1)) => Some(Outcome::Marked),
        _ => None,
    }
}

/// The pieces of an answer, one for each text: a line, and those behind it that begin with
/// a gap.
fn blocks(out: &[u8]) -> Vec<&[u8]> {
    let mut ends: Vec<usize> = (1..out.len())
        .filter(|&place| out[place - 1] == b'\n' && out[place] != b' ')
        .collect();
    ends.push(out.len());
    let mut start = 0;
    let mut blocks = Vec::new();
    for end in ends {
        if start < end {
            blocks.push(&out[start..end]);
        }
        start = end;
    }
    blocks
}

/// What a block says of its text.
enum Said<'a> {
    Fine,
    Fault {
        number: u8,
        place: usize,
        line: &'a str,
        mark: &'a str,
    },
}

impl Said<'_> {
    fn outcome(&self) -> Outcome {
        match self {
            Said::Fine => Outcome::Good,
            Said::Fault { number, .. } => Outcome::Fault(*number),
        }
    }

    /// Whether the text is shown as it is, with the mark at the place.
    fn fits(&self, text: &[u8]) -> bool {
        match self {
            Said::Fine => true,
            Said::Fault {
                place, line, mark, ..
            } => {
                let to_place = " ".repeat(*place);
                *place <= text.len() && *line == shown(text) && *mark == format!("{to_place}^")
            }
        }
    }
}

/// A text as it is shown: each byte takes one column.
fn shown(text: &[u8]) -> String {
    let column = |byte: &u8| match byte {
        32..=126 => char::from(*byte),
        _ => '?',
    };
    text.iter().map(column).collect()
}

/// Reads the block of the text of this number, if it is written as docs/PROGRAM.md says.
fn read(block: &[u8], number: usize) -> Option<Said<'_>> {
    let block = std::str::from_utf8(block).ok()?;
    let block = block.strip_prefix(&format!("{number}: "))?;
    if block == "ok\n" {
        return Some(Said::Fine);
    }
    let lines: Vec<&str> = block.strip_suffix('\n')?.split('\n').collect();
    let [fault, line, mark] = lines[..] else {
        return None;
    };
    let (number, rest) = fault
        .strip_prefix("fault ")?
        .split_once(" layer 2 place ")?;
    let (place, _) = rest.split_once(": ")?;
    Some(Said::Fault {
        number: number
            .parse()
            .ok()
            .filter(|number| (7..=12).contains(number))?,
        place: place.parse().ok()?,
        line: line.strip_prefix("    ")?,
        mark: mark.strip_prefix("    ")?,
    })
}

// ---------------------------------------------------------------- seeded texts

/// Each file of texts, asked of the machine that it was written for.
fn seeded_cases(files: &Files) -> Vec<Case> {
    let (dome, keyed) = (sheet(files.dome), sheet(&files.texts.join("keyed.mod")));
    let machines: [(&str, &[&str]); 7] = [
        ("dome.rules", &[&dome]),
        ("ring.rules", &[RING]),
        ("pair.rules", &["pair", &dome, RING]),
        ("keyed.rules", &[&keyed]),
        ("empty.rules", &[EMPTY]),
        ("words.rules", &[RING]),
        ("bytes.rules", &[RING]),
    ];
    machines
        .iter()
        .map(|(file, machine)| rules(machine, &files.texts.join(file)))
        .collect()
}

/// What came of a file of texts: of the answer as a whole, and of each text.
struct Texts {
    whole: Verdict,
    single: Vec<Verdict>,
}

impl Texts {
    fn of(case: &Case, proved: &Answer, second: &Answer) -> io::Result<Texts> {
        let file = fs::read(&case.words[case.words.len() - 1])?;
        let texts: Vec<&[u8]> = file
            .split_inclusive(|byte| *byte == b'\n')
            .map(|line| line.strip_suffix(b"\n").unwrap_or(line))
            .collect();
        let (proved_blocks, second_blocks) = (blocks(&proved.out), blocks(&second.out));
        let mut whole = Verdict::of(case, proved, second);
        if second_blocks.len() != texts.len() {
            let count = format!("{} answers to {} rules", second_blocks.len(), texts.len());
            whole.difference.get_or_insert(count);
        }
        let single = texts.iter().enumerate().map(|(place, text)| Block {
            number: place + 1,
            text,
            proved: proved_blocks.get(place).copied().unwrap_or_default(),
            second: second_blocks.get(place).copied().unwrap_or_default(),
        });
        Ok(Texts {
            whole,
            single: single.map(|block| block.verdict(case)).collect(),
        })
    }
}

/// What the two programs say of one text.
struct Block<'a> {
    number: usize,
    text: &'a [u8],
    proved: &'a [u8],
    second: &'a [u8],
}

impl Block<'_> {
    fn verdict(&self, case: &Case) -> Verdict {
        let said = read(self.second, self.number).filter(|said| said.fits(self.text));
        let outcome = said.map_or(Outcome::Odd, |said| said.outcome());
        let mut words = case.words.clone();
        words.push(format!("(rule {})", self.number));
        Verdict {
            words,
            outcome,
            machine: Machine::default(),
            difference: self.difference(outcome),
        }
    }

    fn difference(&self, outcome: Outcome) -> Option<String> {
        let text = shown(self.text);
        if self.proved != self.second {
            let (ours, theirs) = first_difference(self.second, self.proved);
            Some(format!(
                "proved: {theirs}\n    second: {ours}\n    of: {text}"
            ))
        } else if outcome == Outcome::Odd {
            Some(format!("both give no proper answer\n    of: {text}"))
        } else {
            None
        }
    }
}

// ---------------------------------------------------------------- the other cases

fn rules(machine: &[&str], file: &Path) -> Case {
    let file = file.display().to_string();
    Case::new(&[&["rules"], machine, &[&file]].concat())
}

/// A file and its answer: the rules that docs/RULES.md explains.
const EXPLAINED: (&str, &str) = (
    "\
not (open and turn)
EF[true*] look
AG[true*] EF[true*] shut
AG[true* . look] (open or shut)
EF[shut . {turn and not open}*] look
LOOP[true* . look]
SAT[{not shut}]
",
    "1: ok\n2: ok\n3: ok\n4: ok\n5: ok\n6: ok\n7: ok\n",
);

/// A file and its answer: the example of docs/PROGRAM.md.
const MIXED: (&str, &str) = (
    "shut or open\nshut %\nEF[shut] sun\n",
    "\
1: ok
2: fault 8 layer 2 place 5: no word starts with this byte
    shut %
         ^
3: fault 10 layer 2 place 9: the machine does not know this name
    EF[shut] sun
             ^
",
);

/// A file and its answer: an empty line between two others, and no line feed at the end.
const HOLLOW: (&str, &str) = (
    "shut\n\nshut",
    "1: ok\n2: fault 9 layer 2 place 0: no rule goes on like this\n    \n    ^\n3: ok\n",
);

/// What a machine without names says of the rule `aim`.
const NAMELESS: &str = "\
1: fault 10 layer 2 place 0: the machine does not know this name
    aim
    ^
";

/// Files with the answer written by hand.
fn worked_cases(files: &Files) -> io::Result<Vec<Case>> {
    let dome = sheet(files.dome);
    let large = "ring:360,1,0";
    let whole: [(&[&str], &str, &str); 9] = [
        (&[&dome], EXPLAINED.0, EXPLAINED.1),
        (&[&dome], MIXED.0, MIXED.1),
        (&[&dome], HOLLOW.0, HOLLOW.1),
        (&[&dome], "", ""),
        (&[&dome], "shut", "1: ok\n"),
        (&["pair", &dome, RING], "shut or aim\n", "1: ok\n"),
        (&["pair", RING, EMPTY], "aim\n", "1: ok\n"),
        (&["pair", large, large], "aim\n", NAMELESS),
        (&[EMPTY], "true\n", "1: ok\n"),
    ];
    let mut cases = Vec::new();
    for (machine, text, answer) in whole {
        let file = files.work.join(format!("worked-{}.rules", cases.len()));
        fs::write(&file, text)?;
        cases.push(rules(machine, &file).expecting(answer));
    }
    for (machine, text, number, place) in refusals(&dome) {
        let file = files.work.join(format!("worked-{}.rules", cases.len()));
        fs::write(&file, [text.as_bytes(), b"\n"].concat())?;
        cases.push(rules(&[machine], &file).expecting(&refused(number, place, &text)));
    }
    Ok(cases)
}

/// Texts that are refused: the machine, the text, and the number and place of its fault.
fn refusals(dome: &str) -> Vec<(&str, String, u8, usize)> {
    let gaps = " ".repeat(255);
    let far = " ".repeat(65_536);
    let ors = "aim or ".repeat(32);
    let row = "aim.".repeat(31);
    vec![
        (dome, "".into(), 9, 0),
        (dome, gaps.clone(), 9, 255),
        (dome, format!("{gaps} "), 7, 255),
        (dome, format!("{far}shut"), 7, 255),
        (dome, "shut %".into(), 8, 5),
        (dome, "shut \u{e4}\topen\r".into(), 8, 5),
        (dome, "shut shut".into(), 9, 5),
        (dome, "shut or ".into(), 9, 8),
        (dome, "EF[shut]".into(), 9, 8),
        (dome, "shut or aim".into(), 10, 8),
        (dome, "aim aim %".into(), 10, 0),
        (EMPTY, "true or aim".into(), 10, 8),
        (RING, format!("{ors}aim"), 11, 224),
        (RING, format!("{ors}or"), 9, 224),
        (RING, format!("{ors}sun"), 10, 224),
        (RING, ors.clone(), 9, 224),
        (RING, format!("EF[{row}aim"), 12, 127),
        (RING, format!("EF[{row}{{sun}}"), 12, 127),
        (RING, format!("EF[{row}sun"), 10, 127),
        (RING, format!("EF[{row}]"), 9, 127),
    ]
}

/// What has to be printed for a file of one rule that is refused.
fn refused(number: u8, place: usize, text: &str) -> String {
    let words = match number {
        7 => "a rule has at most 255 bytes",
        8 => "no word starts with this byte",
        9 => "no rule goes on like this",
        10 => "the machine does not know this name",
        11 => "a rule has at most 64 parts",
        _ => "an expression has at most 31 letters",
    };
    let (shown, mark) = (shown(text.as_bytes()), " ".repeat(place));
    format!("1: fault {number} layer 2 place {place}: {words}\n    {shown}\n    {mark}^\n")
}

/// Arguments that are none, files that cannot be read, and sheets with a fault.
fn bad_cases(files: &Files) -> io::Result<Vec<Case>> {
    let (good, missing) = (files.work.join("good.rules"), files.work.join("none.rules"));
    fs::write(&good, "true\n")?;
    let file = good.display().to_string();
    let missing_sheet = sheet(&files.work.join("none.mod"));
    let faulty = sheet(&files.work.join("faulty.mod"));
    fs::write(files.work.join("faulty.mod"), "MOD")?;
    let fault = "fault 2 layer 1 place 3: the bytes end inside a field\n";
    Ok(vec![
        Case::new(&["rules"]),
        Case::new(&["rules", RING]),
        Case::new(&["rules", &file]),
        Case::new(&["rules", "pair"]),
        Case::new(&["rules", "pair", RING]),
        Case::new(&["rules", "pair", RING, RING]),
        Case::new(&["Rules", RING, &file]),
        Case::new(&["rule", RING, &file]),
        Case::new(&["examine", RING, &file]),
        Case::new(&["rules", &file, RING]),
        rules(&[], &good),
        rules(&["pair"], &good),
        rules(&["pair", RING], &good),
        rules(&[RING, RING], &good),
        rules(&[RING, RING, RING], &good),
        rules(&["Pair", RING, RING], &good),
        rules(&["pair", RING, RING, RING], &good),
        rules(&[RING, &file], &good),
        rules(&["pair", RING, RING, &file], &good),
        rules(&["ring:12,5"], &good),
        rules(&["pair", RING, "ring:12,5"], &good),
        rules(&[&missing_sheet], &good),
        rules(&["pair", RING, &missing_sheet], &good),
        rules(&["pair", &missing_sheet, &faulty], &good),
        rules(&[RING], &missing),
        rules(&[RING], files.work),
        rules(&[RING], Path::new("")),
        rules(&["pair", RING, EMPTY], &missing),
        rules(&[&faulty], &good).expecting(fault),
        rules(&[&faulty], &missing).expecting(fault),
        rules(&["pair", &faulty, RING], &good).expecting(fault),
        rules(&["pair", RING, &faulty], &missing).expecting(fault),
        rules(&["pair", &faulty, &missing_sheet], &good).expecting(fault),
    ])
}
