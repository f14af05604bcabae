//! What the programs that write sheets and texts share: seeded numbers, where the same seed
//! always gives the same numbers, and the reading of their command line.

use std::env;
use std::io;
use std::path::Path;
use std::process::ExitCode;

/// A seed that has come so far, by the splitmix method.
pub struct Dice(pub u64);

impl Dice {
    pub fn roll(&mut self) -> u64 {
        self.0 = self.0.wrapping_add(0x9E37_79B9_7F4A_7C15);
        let once = (self.0 ^ self.0 >> 30).wrapping_mul(0xBF58_476D_1CE4_E5B9);
        let twice = (once ^ once >> 27).wrapping_mul(0x94D0_49BB_1331_11EB);
        twice ^ twice >> 31
    }

    pub fn below(&mut self, end: usize) -> usize {
        (self.roll() % end as u64) as usize
    }

    pub fn between(&mut self, first: usize, last: usize) -> usize {
        first + self.below(last - first + 1)
    }

    pub fn one_in(&mut self, times: usize) -> bool {
        self.below(times) == 0
    }

    pub fn pick<T: Copy>(&mut self, list: &[T]) -> T {
        list[self.below(list.len())]
    }
}

/// The `main` of a program that is called with SEED COUNT DIR and writes files into DIR.
pub fn write_seeded(program: &str, write: fn(u64, usize, &Path) -> io::Result<()>) -> ExitCode {
    let words: Vec<String> = env::args().skip(1).collect();
    let parsed = match &words[..] {
        [seed, count, dir] => seed.parse().ok().zip(count.parse().ok()).zip(Some(dir)),
        _ => None,
    };
    let Some(((seed, count), dir)) = parsed else {
        eprintln!("{program}: say {program} SEED COUNT DIR");
        return ExitCode::FAILURE;
    };
    match write(seed, count, Path::new(dir)) {
        Ok(()) => ExitCode::SUCCESS,
        Err(why) => {
            eprintln!("{program}: cannot write into {dir:?}: {why}");
            ExitCode::FAILURE
        }
    }
}
