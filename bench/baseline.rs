//! Plain Rust to measure the proved program against: the same sheet read where it lies, the
//! same search among its steps, the same pair, and nothing proved. A front-to-back reader
//! that keeps offsets only; it copies no byte of the sheet.
//!
//! This is a module, not a program: take it in with `mod baseline;`.

/// What a pair asks of its sides.
pub trait Machine {
    fn states(&self) -> usize;
    fn names(&self) -> usize;
    fn step(&self, from: usize, to: usize) -> Option<u16>;
}

const KEY_WORDS: [&[u8]; 11] = [
    b"true", b"false", b"not", b"and", b"or", b"EF", b"AF", b"EG", b"AG", b"LOOP", b"SAT",
];

const FIRST_NAME: usize = 8;
const STEP: usize = 6;

/// A sheet over borrowed bytes that keep every rule of docs/SHEETS.md.
#[derive(Clone, Copy, Debug)]
pub struct Sheet<'a> {
    bytes: &'a [u8],
    states: usize,
    names: usize,
    steps_at: usize,
}

impl<'a> Sheet<'a> {
    /// Opens a sheet, in one pass over its bytes; nothing if it has a fault.
    pub fn open(bytes: &'a [u8]) -> Option<Sheet<'a>> {
        if bytes.get(..5)? != b"MOD\x01\x00" {
            return None;
        }
        let states = usize::from(half(bytes, 5)?);
        let names = usize::from(*bytes.get(7)?);
        if states == 0 || states > 1024 || names > 32 {
            return None;
        }
        let labels_at = end_of_names(bytes, names)?;
        let count_at = end_of_labels(bytes, labels_at, states, names)?;
        let count = usize::from(half(bytes, count_at)?);
        let steps_at = count_at + 2;
        if bytes.len() != steps_at + STEP * count || !steps_hold(&bytes[steps_at..], states) {
            return None;
        }
        Some(Sheet {
            bytes,
            states,
            names,
            steps_at,
        })
    }

    pub fn states(&self) -> usize {
        self.states
    }

    pub fn names(&self) -> usize {
        self.names
    }

    /// The seconds of a step, by binary search among the entries where they lie.
    pub fn step(&self, from: usize, to: usize) -> Option<u16> {
        if from >= self.states || to >= self.states {
            return None;
        }
        let sought = key(from as u16, to as u16);
        let steps = &self.bytes[self.steps_at..];
        let (mut low, mut high) = (0, steps.len() / STEP);
        while low < high {
            let middle = low + (high - low) / 2;
            let entry = &steps[STEP * middle..STEP * middle + STEP];
            let found = key_of(entry);
            if found == sought {
                return Some(u16::from_le_bytes([entry[4], entry[5]]));
            }
            if found < sought {
                low = middle + 1;
            } else {
                high = middle;
            }
        }
        None
    }
}

impl Machine for Sheet<'_> {
    fn states(&self) -> usize {
        Sheet::states(self)
    }

    fn names(&self) -> usize {
        Sheet::names(self)
    }

    fn step(&self, from: usize, to: usize) -> Option<u16> {
        Sheet::step(self, from, to)
    }
}

/// Two machines side by side: state (x, y) has the number x × q + y, for q states on the
/// right.
#[derive(Clone, Copy, Debug)]
pub struct Pair<L, R> {
    left: L,
    right: R,
    states: usize,
    names: usize,
}

impl<L: Machine, R: Machine> Pair<L, R> {
    /// A pair; with too many states or names together it has none of either.
    pub fn new(left: L, right: R) -> Pair<L, R> {
        let states = left.states() * right.states();
        let names = left.names() + right.names();
        if states > 1024 || names > 32 {
            Pair {
                left,
                right,
                states: 0,
                names: 0,
            }
        } else {
            Pair {
                left,
                right,
                states,
                names,
            }
        }
    }
}

impl<L: Machine, R: Machine> Machine for Pair<L, R> {
    fn states(&self) -> usize {
        self.states
    }

    fn names(&self) -> usize {
        self.names
    }

    fn step(&self, from: usize, to: usize) -> Option<u16> {
        if from >= self.states || to >= self.states {
            return None;
        }
        let width = self.right.states();
        let (x, y) = (from / width, from % width);
        let (to_x, to_y) = (to / width, to % width);
        let left_moves = if y == to_y {
            self.left.step(x, to_x)
        } else {
            None
        };
        let right_moves = if x == to_x {
            self.right.step(y, to_y)
        } else {
            None
        };
        match (left_moves, right_moves) {
            (Some(left), Some(right)) => Some(left.min(right)),
            (left, right) => left.or(right),
        }
    }
}

/// Two bytes at an offset, the lower one first.
fn half(bytes: &[u8], at: usize) -> Option<u16> {
    match bytes.get(at..at + 2) {
        Some(&[low, high]) => Some(u16::from_le_bytes([low, high])),
        _ => None,
    }
}

/// From and to as one number, in the order of the steps.
fn key(from: u16, to: u16) -> u32 {
    u32::from(from) << 16 | u32::from(to)
}

fn key_of(entry: &[u8]) -> u32 {
    key(
        u16::from_le_bytes([entry[0], entry[1]]),
        u16::from_le_bytes([entry[2], entry[3]]),
    )
}

/// The first words of a sheet, where they lie.
fn words(bytes: &[u8], count: usize) -> impl Iterator<Item = &[u8]> {
    let mut at = FIRST_NAME;
    (0..count).map(move |_| {
        let start = at + 1;
        at = start + usize::from(bytes[at]);
        &bytes[start..at]
    })
}

/// Judges the names and says where they end.
fn end_of_names(bytes: &[u8], names: usize) -> Option<usize> {
    let mut at = FIRST_NAME;
    for earlier in 0..names {
        let length = usize::from(*bytes.get(at)?);
        let word = bytes.get(at + 1..at + 1 + length)?;
        if length > 16 || !is_name(word) || words(bytes, earlier).any(|other| other == word) {
            return None;
        }
        at += 1 + length;
    }
    Some(at)
}

fn is_name(word: &[u8]) -> bool {
    match word.split_first() {
        Some((first, rest)) => {
            first.is_ascii_alphabetic()
                && rest
                    .iter()
                    .all(|byte| byte.is_ascii_alphanumeric() || *byte == b'_')
                && !KEY_WORDS.contains(&word)
        }
        None => false,
    }
}

/// Judges the labels and says where they end.
fn end_of_labels(bytes: &[u8], start: usize, states: usize, names: usize) -> Option<usize> {
    let end = start + 4 * states;
    let unlisted = u32::MAX.checked_shl(names as u32).unwrap_or(0);
    let listed =
        |label: &[u8]| u32::from_le_bytes([label[0], label[1], label[2], label[3]]) & unlisted == 0;
    if bytes.get(start..end)?.chunks_exact(4).all(listed) {
        Some(end)
    } else {
        None
    }
}

/// Whether the steps ascend, stay within the states, and leave each of them.
fn steps_hold(steps: &[u8], states: usize) -> bool {
    let mut before = None;
    let mut left = 0;
    for entry in steps.chunks_exact(STEP) {
        let key = key_of(entry);
        let (from, to) = ((key >> 16) as usize, (key & 0xFFFF) as usize);
        if from >= states || to >= states || before >= Some(key) || from > left {
            return false;
        }
        before = Some(key);
        left = from + 1;
    }
    left == states
}
