//! Judges rule texts, from docs/RULES.md alone.
//!
//! A text is cut into words. Then each kind of fault is looked for on its own, and the
//! fault of the text is the first of all that were found. Whether words begin a derivable
//! text is read off a chart (Earley's method): for the place behind each word it lists all
//! productions that can be under way there, so nothing is ever tried and taken back.
//!
//! This file needs no other: the second program takes it in as a module, and so can a
//! program that measures `judge`.

use std::sync::LazyLock;

const MOST_BYTES: usize = 255;
const MOST_PARTS: usize = 64;
const MOST_LETTERS: usize = 31;

/// Why a text is refused. Of two faults, the lesser is told.
#[derive(Clone, Copy, Debug, PartialEq, Eq, PartialOrd, Ord)]
pub struct Fault {
    pub place: usize,
    pub number: u8,
}

/// Judges a text for a machine that knows these names.
pub fn judge(text: &[u8], knows: &dyn Fn(&[u8]) -> bool) -> Result<(), Fault> {
    if text.len() > MOST_BYTES {
        return Err(Fault {
            place: MOST_BYTES,
            number: 7,
        });
    }
    let (words, stray) = cut(text);
    let found = [
        (8, stray),
        (9, misfit(&words, text.len())),
        (10, unknown_name(&words, knows)),
        (11, part_too_many(&words)),
        (12, letter_too_many(&words)),
    ];
    let faults = found
        .into_iter()
        .filter_map(|(number, place)| place.map(|place| Fault { place, number }));
    faults.min().map_or(Ok(()), Err)
}

// ---------------------------------------------------------------- words

/// What productions are made of: the kinds of words, and what is derived.
#[derive(Clone, Copy, PartialEq, Eq)]
enum Symbol {
    Name,
    Constant,
    Not,
    And,
    Or,
    Quantifier,
    Cycle,
    LeftRound,
    RightRound,
    LeftSquare,
    RightSquare,
    LeftCurly,
    RightCurly,
    Dot,
    Bar,
    Asterisk,
    State,
    Conj,
    Unary,
    Reg,
    Seq,
    Star,
    Base,
    Letter,
}

const SYMBOLS: usize = Symbol::Letter as usize + 1;

struct Word<'a> {
    symbol: Symbol,
    place: usize,
    spelling: &'a [u8],
}

/// The words up to the first stray byte, and where that one is, if there is one.
fn cut(text: &[u8]) -> (Vec<Word<'_>>, Option<usize>) {
    let mut words = Vec::with_capacity(text.len());
    let mut place = 0;
    while let Some(&byte) = text.get(place) {
        if byte == b' ' {
            place += 1;
            continue;
        }
        let Some((symbol, length)) = first_word(&text[place..]) else {
            return (words, Some(place));
        };
        words.push(Word {
            symbol,
            place,
            spelling: &text[place..place + length],
        });
        place += length;
    }
    (words, None)
}

/// The kind and the length of the word that these bytes start with.
fn first_word(bytes: &[u8]) -> Option<(Symbol, usize)> {
    if !bytes.first()?.is_ascii_alphabetic() {
        return sign(bytes[0]).map(|symbol| (symbol, 1));
    }
    let goes_on = |byte: &u8| byte.is_ascii_alphanumeric() || *byte == b'_';
    let length = bytes
        .iter()
        .position(|byte| !goes_on(byte))
        .unwrap_or(bytes.len());
    Some((spelled(&bytes[..length]), length))
}

fn sign(byte: u8) -> Option<Symbol> {
    Some(match byte {
        b'(' => Symbol::LeftRound,
        b')' => Symbol::RightRound,
        b'[' => Symbol::LeftSquare,
        b']' => Symbol::RightSquare,
        b'{' => Symbol::LeftCurly,
        b'}' => Symbol::RightCurly,
        b'.' => Symbol::Dot,
        b'|' => Symbol::Bar,
        b'*' => Symbol::Asterisk,
        _ => return None,
    })
}

fn spelled(word: &[u8]) -> Symbol {
    match word {
        b"true" | b"false" => Symbol::Constant,
        b"not" => Symbol::Not,
        b"and" => Symbol::And,
        b"or" => Symbol::Or,
        b"EF" | b"AF" | b"EG" | b"AG" => Symbol::Quantifier,
        b"LOOP" | b"SAT" => Symbol::Cycle,
        _ => Symbol::Name,
    }
}

// ---------------------------------------------------------------- names and limits

fn unknown_name(words: &[Word], knows: &dyn Fn(&[u8]) -> bool) -> Option<usize> {
    words
        .iter()
        .find(|word| word.symbol == Symbol::Name && !knows(word.spelling))
        .map(|word| word.place)
}

fn part_too_many(words: &[Word]) -> Option<usize> {
    words
        .iter()
        .filter(|word| is_part(word.symbol))
        .nth(MOST_PARTS)
        .map(|word| word.place)
}

fn is_part(symbol: Symbol) -> bool {
    use Symbol::*;
    matches!(
        symbol,
        Name | Constant | Not | And | Or | Quantifier | Cycle
    )
}

/// Where an expression gets a letter too many.
///
/// A letter is of the expression whose `[` is open there, unless a `{` was opened later.
/// Where the words do not fit the grammar this may be wrong; fault 9 has come before.
fn letter_too_many(words: &[Word]) -> Option<usize> {
    let mut open: Vec<Option<usize>> = Vec::new();
    for word in words {
        if let (true, Some(Some(letters))) = (starts_letter(word.symbol), open.last_mut()) {
            *letters += 1;
            if *letters > MOST_LETTERS {
                return Some(word.place);
            }
        }
        match word.symbol {
            Symbol::LeftSquare => open.push(Some(0)),
            Symbol::LeftCurly => open.push(None),
            Symbol::RightSquare | Symbol::RightCurly => {
                open.pop();
            }
            _ => {}
        }
    }
    None
}

fn starts_letter(symbol: Symbol) -> bool {
    matches!(symbol, Symbol::Name | Symbol::Constant | Symbol::LeftCurly)
}

// ---------------------------------------------------------------- the grammar

/// A symbol, and one way to make it.
type Production = (Symbol, &'static [Symbol]);

/// The grammar of docs/RULES.md. A repetition is a production that begins with what it makes.
const PRODUCTIONS: [Production; 21] = {
    use Symbol::*;
    [
        (State, &[Conj]),
        (State, &[State, Or, Conj]),
        (Conj, &[Unary]),
        (Conj, &[Conj, And, Unary]),
        (Unary, &[Not, Unary]),
        (Unary, &[Quantifier, LeftSquare, Reg, RightSquare, Unary]),
        (Unary, &[Cycle, LeftSquare, Reg, RightSquare]),
        (Unary, &[Name]),
        (Unary, &[Constant]),
        (Unary, &[LeftRound, State, RightRound]),
        (Reg, &[Seq]),
        (Reg, &[Reg, Bar, Seq]),
        (Seq, &[Star]),
        (Seq, &[Seq, Dot, Star]),
        (Star, &[Base]),
        (Star, &[Star, Asterisk]),
        (Base, &[Letter]),
        (Base, &[LeftRound, Reg, RightRound]),
        (Letter, &[Name]),
        (Letter, &[Constant]),
        (Letter, &[LeftCurly, State, RightCurly]),
    ]
};

/// Some symbols, a bit for each.
#[derive(Clone, Copy, Default, PartialEq, Eq)]
struct Symbols(u32);

impl Symbols {
    fn with(self, others: Symbols) -> Symbols {
        Symbols(self.0 | others.0)
    }

    fn has(self, symbol: Symbol) -> bool {
        self.0 >> symbol as u32 & 1 == 1
    }
}

/// A place in a production. Those of one production follow each other in the list.
#[derive(Clone, Copy)]
struct Stage {
    makes: Symbol,
    next: Option<Symbol>,
}

/// The grammar as the chart asks for it.
struct Grammar {
    stages: Vec<Stage>,
    /// By symbol: the stages behind it, in the productions that begin with it.
    behind_first: [Vec<usize>; SYMBOLS],
    /// By symbol: what something made of it can begin with, itself included.
    beginnings: [Symbols; SYMBOLS],
}

static GRAMMAR: LazyLock<Grammar> = LazyLock::new(|| Grammar::of(&PRODUCTIONS));

impl Grammar {
    fn of(productions: &[Production]) -> Grammar {
        let mut stages = Vec::new();
        let mut behind_first = [const { Vec::new() }; SYMBOLS];
        for &(makes, symbols) in productions {
            behind_first[symbols[0] as usize].push(stages.len() + 1);
            let each = symbols.iter().copied().map(Some).chain([None]);
            stages.extend(each.map(|next| Stage { makes, next }));
        }
        Grammar {
            stages,
            behind_first,
            beginnings: beginnings(productions),
        }
    }
}

fn beginnings(productions: &[Production]) -> [Symbols; SYMBOLS] {
    let mut table: [Symbols; SYMBOLS] = std::array::from_fn(|number| Symbols(1 << number));
    loop {
        let before = table;
        for &(makes, symbols) in productions {
            let more = table[symbols[0] as usize];
            table[makes as usize] = table[makes as usize].with(more);
        }
        if table == before {
            return table;
        }
    }
}

// ---------------------------------------------------------------- the chart

/// A production under way: how far it has come, and behind how many words it began.
#[derive(Clone, Copy, PartialEq, Eq)]
struct Item {
    stage: usize,
    origin: usize,
}

/// What is under way behind some number of words.
///
/// A production that has not yet taken a symbol is no item: it is under way if what it
/// makes is among the expected symbols.
#[derive(Clone, Copy)]
struct Column {
    first: usize,
    end: usize,
    expected: Symbols,
}

struct Chart {
    grammar: &'static Grammar,
    items: Vec<Item>,
    columns: Vec<Column>,
}

impl Chart {
    /// The chart of no words, with room for those that follow.
    fn new(grammar: &'static Grammar, words: usize) -> Chart {
        let mut columns = Vec::with_capacity(words + 1);
        columns.push(Column {
            first: 0,
            end: 0,
            expected: grammar.beginnings[Symbol::State as usize],
        });
        Chart {
            grammar,
            items: Vec::with_capacity(8 * words),
            columns,
        }
    }

    /// Whether the words so far and this one begin a derivable text.
    fn expects(&self, word: Symbol) -> bool {
        self.columns
            .last()
            .is_some_and(|column| column.expected.has(word))
    }

    /// Adds the column behind one more word.
    fn take(&mut self, word: Symbol) {
        let first = self.items.len();
        self.advance(self.columns.len() - 1, word, first);
        let mut place = first;
        while let Some(&Item { stage, origin }) = self.items.get(place) {
            let Stage { makes, next } = self.grammar.stages[stage];
            if next.is_none() {
                self.advance(origin, makes, first);
            }
            place += 1;
        }
        self.columns.push(Column {
            first,
            end: self.items.len(),
            expected: self.expected(first),
        });
    }

    /// Moves all that waits in a column for this symbol into the column that begins at
    /// `first` and is still growing.
    fn advance(&mut self, origin: usize, symbol: Symbol, first: usize) {
        let grammar = self.grammar;
        let Column {
            first: start,
            end,
            expected,
        } = self.columns[origin];
        for &stage in &grammar.behind_first[symbol as usize] {
            if expected.has(grammar.stages[stage].makes) {
                self.add(Item { stage, origin }, first);
            }
        }
        for place in start..end {
            let Item { stage, origin } = self.items[place];
            if grammar.stages[stage].next == Some(symbol) {
                let stage = stage + 1;
                self.add(Item { stage, origin }, first);
            }
        }
    }

    fn add(&mut self, item: Item, first: usize) {
        if !self.items[first..].contains(&item) {
            self.items.push(item);
        }
    }

    /// All that can come next where these items are under way.
    fn expected(&self, first: usize) -> Symbols {
        self.items[first..]
            .iter()
            .filter_map(|item| self.grammar.stages[item.stage].next)
            .map(|next| self.grammar.beginnings[next as usize])
            .fold(Symbols::default(), Symbols::with)
    }

    /// Whether the words so far are a derivable text.
    fn is_complete(&self) -> bool {
        let column = &self.columns[self.columns.len() - 1];
        self.items[column.first..].iter().any(|item| {
            let Stage { makes, next } = self.grammar.stages[item.stage];
            item.origin == 0 && makes == Symbol::State && next.is_none()
        })
    }
}

/// The first word that does not go on as a derivable text does, or the text's end.
fn misfit(words: &[Word], end: usize) -> Option<usize> {
    let mut chart = Chart::new(&GRAMMAR, words.len());
    for word in words {
        if !chart.expects(word.symbol) {
            return Some(word.place);
        }
        chart.take(word.symbol);
    }
    (!chart.is_complete()).then_some(end)
}
