//! Writes rule texts, good and faulty, for the comparison of the two programs.
//!
//!     texts SEED COUNT DIR
//!
//! writes files of rules, one text to a line, into DIR. The same seed and count always give
//! the same files. No text has a line feed in it.
//!
//! | file | its rules are for |
//! |---|---|
//! | `dome.rules` | the sheet of docs/SHEETS.md |
//! | `ring.rules` | a ring |
//! | `pair.rules` | a pair of the two |
//! | `keyed.rules` | `keyed.mod`, a sheet written besides: names that begin with key words |
//! | `empty.rules` | a machine without names |
//! | `words.rules` | a ring: all short rows of words, and each word behind each beginning of a text |
//! | `bytes.rules` | a ring: each byte alone, and around and inside words |
//!
//! Each of the first five has the texts at the limits and then COUNT others, by turns good
//! ones and ones that are spoiled in some way.

use std::fs;
use std::io;
use std::path::Path;
use std::process::ExitCode;

mod dice;
use dice::{write_seeded, Dice};

/// The first five files, each with the names that its machine knows.
const FILES: [(&str, &[&str]); 5] = [
    ("dome.rules", &["shut", "turn", "open", "look"]),
    ("ring.rules", &RING),
    (
        "pair.rules",
        &["shut", "turn", "open", "look", "home", "aim"],
    ),
    ("keyed.rules", &KEYED),
    ("empty.rules", &[]),
];

const RING: [&str; 2] = ["home", "aim"];

/// Names that begin with a key word or differ from one only a little, and two short ones,
/// with which the most parts fit into a text.
const KEYED: [&str; 19] = [
    "true1",
    "falsehood",
    "notable",
    "and_",
    "orb",
    "EFx",
    "AF0",
    "EG_",
    "AGe",
    "LOOPS",
    "SATurn",
    "not_not",
    "or1",
    "tru",
    "Or",
    "LOO",
    "true_and_false_x",
    "a",
    "E",
];

/// Names that hardly any machine knows: some are a known name with a byte more or less, or
/// two words without the gap between them.
const UNKNOWN: [&str; 18] = [
    "x",
    "nowhere",
    "True",
    "AND",
    "ef",
    "Sat",
    "aims",
    "ai",
    "shu",
    "shut_",
    "notaim",
    "aimor",
    "orshut",
    "EFaim",
    "true2",
    "or_",
    "seventeen_letters",
    "a_name_that_goes_on_for_much_longer_than_any_sheet_would_allow_it",
];

/// Each kind of word at least once; `aim` stands for all names.
const WORDS: [&str; 17] = [
    "aim", "true", "false", "not", "and", "or", "EF", "SAT", "(", ")", "[", "]", "{", "}", ".",
    "|", "*",
];

const KEY_WORDS: [&str; 11] = [
    "true", "false", "not", "and", "or", "EF", "AF", "EG", "AG", "LOOP", "SAT",
];
const QUANTIFIERS: [&str; 4] = ["EF", "AF", "EG", "AG"];
const CYCLES: [&str; 2] = ["LOOP", "SAT"];
const LONGEST: usize = 255;
const MOST_PARTS: usize = 64;
const MOST_LETTERS: usize = 31;

fn main() -> ExitCode {
    write_seeded("texts", write_files)
}

fn write_files(seed: u64, count: usize, dir: &Path) -> io::Result<()> {
    fs::create_dir_all(dir)?;
    fs::write(dir.join("keyed.mod"), sheet(&KEYED))?;
    for (number, (file, names)) in (0..).zip(FILES) {
        let mut pen = Pen {
            names,
            dice: Dice(seed.wrapping_add(number)),
        };
        let mut texts = limits(&mut pen);
        texts.extend((0..count).map(|turn| pen.by_turns(turn)));
        write_lines(&dir.join(file), &texts)?;
    }
    write_lines(&dir.join("words.rules"), &rows_of_words())?;
    write_lines(&dir.join("bytes.rules"), &each_byte())
}

fn write_lines(file: &Path, texts: &[Text]) -> io::Result<()> {
    let mut bytes = Vec::new();
    for text in texts {
        bytes.extend(text.iter().map(|byte| tame(*byte)));
        bytes.push(b'\n');
    }
    fs::write(file, bytes)
}

/// Keeps line feeds out of texts.
fn tame(byte: u8) -> u8 {
    match byte {
        b'\n' => b'\t',
        other => other,
    }
}

/// A sheet of one state that bears none of these names.
fn sheet(names: &[&str]) -> Vec<u8> {
    let mut bytes = b"MOD\x01\0\x01\0".to_vec();
    bytes.push(names.len() as u8);
    for name in names {
        bytes.push(name.len() as u8);
        bytes.extend(name.bytes());
    }
    bytes.extend([0; 4]);
    bytes.extend([1, 0]);
    bytes.extend([0, 0, 0, 0, 7, 0]);
    bytes
}

// ---------------------------------------------------------------- words and gaps

type Text = Vec<u8>;
type Words = Vec<&'static str>;

/// How much room is left between words.
#[derive(Clone, Copy)]
enum Spacing {
    /// No gap but where two words would become one.
    Tight,
    /// One gap between any two words.
    Even,
    /// Some gaps or none, at the ends too.
    Loose,
}

fn set(words: &[&str], spacing: Spacing, dice: &mut Dice) -> Text {
    let mut text = Text::new();
    for word in words {
        let fewest = usize::from(would_join(&text, word));
        let gaps = match spacing {
            Spacing::Tight => fewest,
            Spacing::Even => usize::from(!text.is_empty()),
            Spacing::Loose => dice.between(fewest, 2),
        };
        text.extend(vec![b' '; gaps]);
        text.extend(word.bytes());
    }
    if let Spacing::Loose = spacing {
        text.extend(vec![b' '; dice.below(3)]);
    }
    text
}

fn tight(words: &[&str]) -> Text {
    set(words, Spacing::Tight, &mut Dice(0))
}

fn would_join(text: &[u8], word: &str) -> bool {
    let in_word =
        |byte: Option<&u8>| byte.is_some_and(|byte| byte.is_ascii_alphanumeric() || *byte == b'_');
    in_word(text.last()) && in_word(word.as_bytes().first())
}

fn is_part(word: &str) -> bool {
    word.starts_with(|first: char| first.is_ascii_alphabetic())
}

/// So many of a word, with another between them.
fn joined(word: &'static str, joint: &'static str, count: usize) -> Words {
    let mut words = [word, joint].repeat(count);
    words.pop();
    words
}

fn enclosed(left: &'static str, words: Words, right: &'static str) -> Words {
    [vec![left], words, vec![right]].concat()
}

// ---------------------------------------------------------------- good texts

/// Writes texts for a machine that knows some names.
struct Pen {
    names: &'static [&'static str],
    dice: Dice,
}

/// Something of the grammar, of about this many parts.
type Branch = fn(&mut Pen, usize) -> Words;

impl Pen {
    fn atom(&mut self) -> &'static str {
        if self.names.is_empty() || self.dice.one_in(6) {
            self.dice.pick(&["true", "false"])
        } else {
            self.dice.pick(self.names)
        }
    }

    /// The shortest word that is an atom.
    fn short_atom(&self) -> &'static str {
        let shortest = self.names.iter().copied().min_by_key(|name| name.len());
        shortest.unwrap_or("true")
    }

    fn unknown(&mut self) -> &'static str {
        let unknown: Words = UNKNOWN
            .into_iter()
            .filter(|word| !self.names.contains(word))
            .collect();
        self.dice.pick(&unknown)
    }

    fn operator(&mut self) -> &'static str {
        self.dice.pick(&[&QUANTIFIERS[..], &CYCLES].concat())
    }

    fn state(&mut self, size: usize) -> Words {
        self.chain(size, "or", Pen::conj)
    }

    fn conj(&mut self, size: usize) -> Words {
        self.chain(size, "and", Pen::unary)
    }

    fn unary(&mut self, size: usize) -> Words {
        if size < 2 {
            return vec![self.atom()];
        }
        match self.dice.below(9) {
            0 | 1 => [vec!["not"], self.unary(size - 1)].concat(),
            2..=4 => {
                let inside = self.dice.between(1, size - 1);
                let words = self.reg(inside);
                let operator = self.dice.pick(&QUANTIFIERS);
                self.operated(operator, words, size - inside)
            }
            5 | 6 => {
                let words = self.reg(size - 1);
                let operator = self.dice.pick(&CYCLES);
                self.operated(operator, words, 0)
            }
            7 => enclosed("(", self.state(size - 1), ")"),
            _ => vec![self.atom()],
        }
    }

    /// An operator with its expression, and what it is said of, if it takes that.
    fn operated(&mut self, operator: &'static str, expression: Words, size: usize) -> Words {
        let mut words = [vec![operator], enclosed("[", expression, "]")].concat();
        if QUANTIFIERS.contains(&operator) {
            words.extend(self.unary(size));
        }
        words
    }

    fn reg(&mut self, size: usize) -> Words {
        self.chain(size, "|", Pen::seq)
    }

    fn seq(&mut self, size: usize) -> Words {
        self.chain(size, ".", Pen::star)
    }

    fn star(&mut self, size: usize) -> Words {
        let mut words = match self.dice.below(3) {
            0 if size > 1 => enclosed("(", self.reg(size - 1), ")"),
            _ => self.letter(size),
        };
        let stars = self.dice.pick(&[0, 0, 0, 1, 1, 2, 3]);
        words.extend(vec!["*"; stars]);
        words
    }

    fn letter(&mut self, size: usize) -> Words {
        if size > 1 || self.dice.one_in(5) {
            enclosed("{", self.state(size), "}")
        } else {
            vec![self.atom()]
        }
    }

    /// One to four branches with a joint between them.
    fn chain(&mut self, size: usize, joint: &'static str, branch: Branch) -> Words {
        let count = self.dice.pick(&[1, 1, 1, 2, 2, 3, 4]).min(1 + size / 3);
        let mut words = branch(self, size / count);
        for _ in 1..count {
            words.push(joint);
            words.extend(branch(self, size / count));
        }
        words
    }

    fn some_words(&mut self) -> Words {
        let size = self.dice.pick(&[1, 2, 3, 5, 8, 12, 18, 25, 40]);
        self.state(size)
    }

    fn spaced(&mut self, words: &[&str]) -> Text {
        let spacing = self
            .dice
            .pick(&[Spacing::Tight, Spacing::Even, Spacing::Loose]);
        set(words, spacing, &mut self.dice)
    }

    fn good(&mut self) -> Text {
        let words = self.some_words();
        self.spaced(&words)
    }
}

// ---------------------------------------------------------------- spoiled texts

impl Pen {
    fn by_turns(&mut self, turn: usize) -> Text {
        match turn % 12 {
            0 | 1 => self.good(),
            2 | 3 => self.one_byte_off(),
            4 => self.piece(),
            5 => self.one_word_off(),
            6 => self.random_words(),
            7 => self.unknown_somewhere(),
            8 => self.filled(),
            9 => self.parts_about_the_limit(),
            10 => self.letters_about_the_limit(),
            _ => self.spoiled_twice(),
        }
    }

    fn one_byte_off(&mut self) -> Text {
        let mut text = self.good();
        self.spoil_byte(&mut text);
        text
    }

    /// Changes, drops or adds a byte.
    fn spoil_byte(&mut self, text: &mut Text) {
        let place = self.dice.below(text.len().max(1));
        let byte = match self.dice.below(4) {
            0 => self.dice.roll() as u8,
            1 => self.dice.pick(b"\0\t\r\x1F\x7F\x80\xA0\xC3\xFF%/:@`^_09-"),
            _ => self.dice.pick(b" ()[]{}.|*aEnot"),
        };
        match self.dice.below(3) {
            0 if place < text.len() => text[place] = byte,
            1 if place < text.len() => {
                text.remove(place);
            }
            _ => text.insert(place.min(text.len()), byte),
        }
    }

    /// A good text without its end, its beginning, or both.
    fn piece(&mut self) -> Text {
        let text = self.good();
        let first = match self.dice.below(3) {
            0 => self.dice.below(text.len()),
            _ => 0,
        };
        let end = self.dice.between(first, text.len());
        text[first..end].to_vec()
    }

    fn one_word_off(&mut self) -> Text {
        let mut words = self.some_words();
        self.spoil_word(&mut words);
        self.spaced(&words)
    }

    /// Changes, drops, doubles or adds a word, or swaps two.
    fn spoil_word(&mut self, words: &mut Words) {
        let place = self.dice.below(words.len());
        let neighbour = (place + 1) % words.len();
        let word = self.any_word();
        match self.dice.below(5) {
            0 => words[place] = word,
            1 => words.insert(place, words[place]),
            2 => words.insert(place, word),
            3 => words.swap(place, neighbour),
            _ => {
                words.remove(place);
            }
        }
    }

    fn any_word(&mut self) -> &'static str {
        match self.dice.below(6) {
            0 => self.unknown(),
            1 => self.atom(),
            2 => self.operator(),
            _ => self.dice.pick(&WORDS[1..]),
        }
    }

    fn random_words(&mut self) -> Text {
        let count = self.dice.between(1, 9);
        let words: Words = (0..count).map(|_| self.any_word()).collect();
        self.spaced(&words)
    }

    fn unknown_somewhere(&mut self) -> Text {
        let mut words = self.some_words();
        let places: Vec<usize> = (0..words.len()).filter(|at| is_part(words[*at])).collect();
        for _ in 0..self.dice.between(1, 2) {
            let place = self.dice.pick(&places);
            words[place] = self.unknown();
        }
        let mut text = self.spaced(&words);
        if self.dice.one_in(2) {
            self.spoil_byte(&mut text);
        }
        text
    }

    /// A text with so many gaps put in that it is just about as long as a rule may be.
    fn filled(&mut self) -> Text {
        let mut text = match self.dice.below(4) {
            0 => self.one_byte_off(),
            1 => self.unknown_somewhere(),
            _ => self.good(),
        };
        let length = self.dice.between(LONGEST - 2, LONGEST + 2);
        let place = self.place_for_gaps(&text);
        let gaps = vec![b' '; length.saturating_sub(text.len())];
        text.splice(place..place, gaps);
        text
    }

    /// An end of a text, a place at a sign of it, or any place.
    fn place_for_gaps(&mut self, text: &[u8]) -> usize {
        let at_signs: Vec<usize> = (0..text.len())
            .filter(|at| !text[*at].is_ascii_alphanumeric())
            .collect();
        match self.dice.below(5) {
            0 => 0,
            1 => text.len(),
            2 => self.dice.between(0, text.len()),
            _ if at_signs.is_empty() => 0,
            _ => self.dice.pick(&at_signs),
        }
    }

    /// Some words to begin with, drawn out to about 64 parts; one part near the limit is
    /// sometimes another word.
    fn parts_about_the_limit(&mut self) -> Text {
        let size = self.dice.between(1, 20);
        let count = self.dice.between(MOST_PARTS - 1, MOST_PARTS + 2);
        let mut words: Words = self.state(size);
        let (long, short) = (self.names, self.short_atom());
        for word in &mut words {
            if long.contains(word) {
                *word = short;
            }
        }
        self.draw_out(&mut words, count);
        if self.dice.one_in(2) {
            let near = self.dice.between(1, 4).min(words.len());
            let place = words.len() - near;
            words[place] = self.any_word();
        }
        let mut text = tight(&words);
        if self.dice.one_in(4) {
            self.spoil_byte(&mut text);
        }
        text
    }

    /// Adds atoms behind a text until it has so many parts.
    fn draw_out(&mut self, words: &mut Words, count: usize) {
        let mut parts = words.iter().filter(|word| is_part(word)).count();
        while parts + 2 <= count {
            words.extend([self.dice.pick(&["or", "and"]), self.short_atom()]);
            parts += 2;
        }
        if parts < count {
            words.insert(0, "not");
        }
    }

    /// An expression with about 31 letters, somewhere in a text; one of the letters is
    /// sometimes another word.
    fn letters_about_the_limit(&mut self) -> Text {
        let count = self.dice.between(MOST_LETTERS - 1, MOST_LETTERS + 2);
        let mut expression = self.letters(count);
        if self.dice.one_in(3) {
            let near = self.dice.between(1, 5).min(expression.len());
            let place = expression.len() - near;
            expression[place] = self.any_word();
        }
        let operator = self.operator();
        let words = self.operated(operator, expression, 1);
        let words = self.surrounded(words);
        let mut text = tight(&words);
        if self.dice.one_in(5) {
            self.spoil_byte(&mut text);
        }
        text
    }

    /// So many letters, most of them short, in all the ways that letters can be joined.
    fn letters(&mut self, count: usize) -> Words {
        let plain = self.dice.one_in(2);
        let mut words = Words::new();
        let mut open = 0;
        for number in 0..count {
            if number > 0 {
                words.push(self.dice.pick(&[".", ".", "|"]));
            }
            if !plain && self.dice.one_in(8) {
                words.push("(");
                open += 1;
            }
            words.extend(self.short_letter(plain));
            if open > 0 && self.dice.one_in(3) {
                words.push(")");
                open -= 1;
            }
            if !plain && self.dice.one_in(6) {
                words.push("*");
            }
        }
        words.extend(vec![")"; open]);
        words
    }

    fn short_letter(&mut self, plain: bool) -> Words {
        let atom = self.short_atom();
        match self.dice.below(if plain { 30 } else { 12 }) {
            0 => vec!["{", atom, "}"],
            1 => vec!["{", "not", atom, "}"],
            2 => vec!["{", "SAT", "[", atom, "]", "}"],
            _ => vec![atom],
        }
    }

    /// A state somewhere in a text: alone, behind something, or as a letter of an expression.
    fn surrounded(&mut self, words: Words) -> Words {
        let atom = self.short_atom();
        match self.dice.below(7) {
            0 => [vec!["not"], words].concat(),
            1 => [vec![atom, "or"], words].concat(),
            2 => [words, vec!["and", atom]].concat(),
            3 => enclosed("(", words, ")"),
            4 => {
                let letter = enclosed("{", words, "}");
                let expression = [vec![atom, "."], letter, vec!["|", atom]].concat();
                self.operated("SAT", expression, 0)
            }
            _ => words,
        }
    }

    fn spoiled_twice(&mut self) -> Text {
        let mut words = self.some_words();
        self.spoil_word(&mut words);
        if !words.is_empty() && self.dice.one_in(2) {
            self.spoil_word(&mut words);
        }
        let mut text = self.spaced(&words);
        self.spoil_byte(&mut text);
        text
    }
}

// ---------------------------------------------------------------- limits

/// Texts at the limits and one beyond them, and beginnings of some texts.
fn limits(pen: &mut Pen) -> Vec<Text> {
    let atom = pen.short_atom();
    let mut texts = lengths(atom);
    texts.extend(brackets(atom));
    texts.extend(parts(atom));
    texts.extend(letters(atom));
    texts.extend(nested_letters(atom));
    texts.extend(several_faults(atom));
    texts.extend(near_key_words(atom));
    texts.extend(beginnings(pen));
    texts
}

/// Texts of 0 bytes, and of 254 to 257: gaps, long names, and gaps around and inside a rule.
fn lengths(atom: &str) -> Vec<Text> {
    let mut texts = vec![Text::new(), b" ".to_vec(), b"   ".to_vec()];
    for length in LONGEST - 1..=LONGEST + 2 {
        let filled = |before: &str, behind: &str| {
            let gaps = " ".repeat(length - before.len() - behind.len());
            format!("{before}{gaps}{behind}").into_bytes()
        };
        texts.extend([
            filled("", ""),
            filled(atom, ""),
            filled("", atom),
            filled("not", atom),
            filled(atom, "or"),
            filled("EF[", "]"),
            filled("%", ""),
            filled("", "%"),
            vec![b'x'; length],
            vec![b'('; length],
            vec![0xFF; length],
            [vec![b'x'; length - 1], vec![b'%']].concat(),
        ]);
    }
    texts
}

/// Many brackets of each kind, in each other, closed and not.
fn brackets(atom: &'static str) -> Vec<Text> {
    let mut texts = Vec::new();
    for depth in [1, 2, 30, 62, 63, 64, 120, 125, 127] {
        let (left, right) = (["("].repeat(depth), [")"].repeat(depth));
        let inside = [&left[..], &[atom], &right].concat();
        let cycle = [vec!["SAT"], enclosed("[", inside.clone(), "]")].concat();
        texts.extend([
            tight(&left),
            tight(&[&left[..], &[atom]].concat()),
            tight(&inside),
            tight(&inside[1..]),
            tight(&inside[..inside.len() - 1]),
            tight(&[&left[..], &right].concat()),
            tight(&cycle),
            tight(&cycle[..cycle.len() - 2]),
        ]);
    }
    for depth in [1, 2, 10, 20, 31, 32, 33] {
        let left = ["SAT", "[", "{"].repeat(depth);
        let right = ["}", "]"].repeat(depth);
        let mixed = ["EF", "[", "(", "{", "("].repeat(depth);
        texts.extend([
            tight(&left),
            tight(&[&left[..], &[atom], &right].concat()),
            tight(&[&left[..], &[atom], &right[1..]].concat()),
            tight(&[&mixed[..], &[atom]].concat()),
        ]);
    }
    texts
}

/// 62 to 66 parts in several shapes, each also with another word as the last part.
fn parts(atom: &'static str) -> Vec<Text> {
    let mut texts = Vec::new();
    for count in MOST_PARTS - 2..=MOST_PARTS + 2 {
        for shape in [nots, ors, ands_and_nots, expressions, letters_of_states] {
            let words = shape(atom, count);
            texts.push(tight(&words));
            texts.push(tight(&words[..words.len() - 1]));
            let last = words.iter().rposition(|word| is_part(word)).unwrap_or(0);
            for other in ["nowhere", "or", "not", "SAT", "]", "%"] {
                texts.push(tight(&[&words[..last], &[other]].concat()));
            }
        }
    }
    texts
}

fn nots(atom: &'static str, count: usize) -> Words {
    [vec!["not"; count - 1], vec![atom]].concat()
}

fn ors(atom: &'static str, count: usize) -> Words {
    let words = joined(atom, "or", count.div_ceil(2));
    match count % 2 {
        0 => [vec!["not"], words[2..].to_vec(), vec!["or", atom]].concat(),
        _ => words,
    }
}

fn ands_and_nots(atom: &'static str, count: usize) -> Words {
    let pairs = (count - 1) / 4;
    let rest = count - 1 - 4 * pairs;
    let pair = ["not", atom, "and", "not"];
    [pair.repeat(pairs), vec!["not"; rest], vec![atom]].concat()
}

fn expressions(atom: &'static str, count: usize) -> Words {
    let left = enclosed("[", joined(atom, ".", MOST_LETTERS), "]");
    let right = enclosed("[", joined(atom, "|", count - MOST_LETTERS - 3), "]");
    [vec!["EF"], left, vec!["AG"], right, vec![atom]].concat()
}

fn letters_of_states(atom: &'static str, count: usize) -> Words {
    let letter = enclosed("{", ors(atom, count - 31), "}");
    let expression = [joined(atom, "|", 30), vec!["."], letter].concat();
    [vec!["LOOP"], enclosed("[", expression, "]")].concat()
}

/// 29 to 33 letters in several shapes, each also cut behind the last letter, and with
/// another word in the last letter's place.
fn letters(atom: &'static str) -> Vec<Text> {
    let mut texts = Vec::new();
    for count in MOST_LETTERS - 2..=MOST_LETTERS + 2 {
        let shapes = [
            joined(atom, ".", count),
            joined(atom, "|", count),
            stars(atom, count),
            enclosed("(", joined(atom, ".", count), ")"),
            curly(atom, count),
        ];
        for shape in shapes {
            let left = [&["SAT", "["], &shape[..]].concat();
            texts.push(tight(&left));
            texts.push(tight(&[&left[..], &["]"]].concat()));
            texts.push(tight(&[&["EF", "["], &shape[..], &["]", atom]].concat()));
            for other in ["nowhere", "{", "{nowhere}", "(", "or", "%"] {
                texts.push(tight(&[&left[..left.len() - 1], &[other]].concat()));
            }
        }
    }
    texts
}

fn stars(atom: &'static str, count: usize) -> Words {
    let words = [atom, "*", "."].repeat(count);
    words[..words.len() - 2].to_vec()
}

fn curly(atom: &'static str, count: usize) -> Words {
    let words = ["{", atom, "}", "|"].repeat(count - 1);
    [words, vec![atom]].concat()
}

/// Two expressions, one in a letter of the other or beside it, each with its own count.
fn nested_letters(atom: &'static str) -> Vec<Text> {
    let mut texts = Vec::new();
    for inner in [1, 30, 31, 32] {
        let letter = {
            let expression = enclosed("[", joined(atom, ".", inner), "]");
            enclosed("{", [vec!["SAT"], expression].concat(), "}")
        };
        for (before, behind) in [
            (0, 29),
            (0, 30),
            (0, 31),
            (15, 15),
            (15, 16),
            (30, 0),
            (31, 0),
        ] {
            let front = [atom, "."].repeat(before);
            let back = [".", atom].repeat(behind);
            let outer = [front, letter.clone(), back].concat();
            texts.push(tight(&[vec!["SAT"], enclosed("[", outer, "]")].concat()));
        }
        for next in [30, 31, 32] {
            let one = enclosed("[", joined(atom, "|", inner), "]");
            let two = enclosed("[", joined(atom, "|", next), "]");
            let words = [vec!["EF"], one, vec!["SAT"], two].concat();
            texts.push(tight(&words));
        }
    }
    texts
}

/// Several faults in one text, one behind the other or at the same place.
fn several_faults(atom: &str) -> Vec<Text> {
    let many = |count: usize| format!("{atom} or ").repeat(count);
    let row = |count: usize| format!("{atom}.").repeat(count);
    let mut texts = Vec::new();
    for early in [atom, "nowhere", "%", "or", "EF]"] {
        for late in [atom, "nowhere", "%", "or", "", "*", "{", "\u{e4}"] {
            texts.push(format!("{early} and {late}"));
            texts.push(format!("{early}{late}"));
            texts.push(format!("{}{early} or {late}", many(31)));
            texts.push(format!("{}{late}", many(32)));
            texts.push(format!("{}not {early} or {late}", many(31)));
            texts.push(format!("SAT[{}{early}.{late}", row(30)));
            texts.push(format!("SAT[{}{late}.{early}", row(31)));
            texts.push(format!("{}EF[{}{late}", many(16), row(31)));
            texts.push(format!("{}EF[{}{early}.{late}]{atom}", many(16), row(30)));
            texts.push(format!("{}EF[{}{early}.{late}]{atom}", many(15), row(31)));
            texts.push(format!("{:>250}{early}{late}", ""));
        }
    }
    texts.into_iter().map(String::into_bytes).collect()
}

/// Each key word and words that are nearly one, alone and in places where one could stand.
fn near_key_words(atom: &str) -> Vec<Text> {
    let mut words = Vec::new();
    for key in KEY_WORDS {
        let (first, rest) = key.split_at(1);
        words.extend([
            key.to_string(),
            key.to_lowercase(),
            key.to_uppercase(),
            first.to_uppercase() + rest,
            first.to_lowercase() + rest,
            key[..key.len() - 1].to_string(),
            rest.to_string(),
        ]);
        words.extend(["_", "0", "x", key].map(|more| format!("{key}{more}")));
        words.extend(["_", "0", "x"].map(|more| format!("{more}{key}")));
    }
    let texts = words.iter().flat_map(|word| {
        [
            word.clone(),
            format!("{word} {atom}"),
            format!("{atom} {word} {atom}"),
            format!("{word}[{atom}]"),
            format!("{word}[{atom}]{atom}"),
        ]
    });
    texts.map(String::into_bytes).collect()
}

/// All beginnings of some texts.
fn beginnings(pen: &mut Pen) -> Vec<Text> {
    let mut texts = Vec::new();
    for size in [6, 12, 18] {
        let words = pen.state(size);
        let text = pen.spaced(&words);
        texts.extend((1..text.len()).map(|end| text[..end].to_vec()));
    }
    texts
}

// ---------------------------------------------------------------- all words, all bytes

/// All rows of up to three words, and each word behind each beginning of some texts.
fn rows_of_words() -> Vec<Text> {
    let mut rows: Vec<Words> = Vec::new();
    for first in WORDS {
        rows.push(vec![first]);
        for second in WORDS {
            rows.push(vec![first, second]);
            rows.extend(WORDS.map(|third| vec![first, second, third]));
        }
    }
    for text in [
        "EF [ ( aim * . { not aim } | true ) * ] ( aim or not SAT [ aim ] and aim )",
        "not not AG [ { LOOP [ aim . aim * * ] or ( false and aim ) } * ] EG [ true ] aim or aim",
    ] {
        let words: Words = text.split(' ').collect();
        for end in 0..=words.len() {
            rows.extend(WORDS.map(|word| [&words[..end], &[word]].concat()));
        }
    }
    rows.iter()
        .map(|words| set(words, Spacing::Even, &mut Dice(0)))
        .collect()
}

/// Each byte but the line feed: alone, before and behind a word, inside one, and between two.
fn each_byte() -> Vec<Text> {
    let mut texts = Vec::new();
    for byte in (0..=255).filter(|byte| *byte != b'\n') {
        for (before, behind) in [
            ("", ""),
            ("", "aim"),
            ("aim", ""),
            ("ai", "m"),
            ("not", "aim"),
            ("aim ", " aim"),
            ("SAT[aim", "aim]"),
        ] {
            texts.push([before.as_bytes(), &[byte], behind.as_bytes()].concat());
        }
    }
    texts
}
