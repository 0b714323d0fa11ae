//! What every comparison shares: its arguments, its counts, its first and last
//! line and its exit status.

/// The words after the program's name: a seed, then counts.
pub struct Words(Vec<String>);

impl Words {
    /// Reads the words, and prints the seed.
    pub fn read() -> (Words, u64) {
        let words = Words(std::env::args().skip(1).collect());
        let seed = words.number(0, 20240901);
        println!("seed {seed}");
        (words, seed)
    }

    fn number(&self, at: usize, default: u64) -> u64 {
        self.0.get(at).map_or(default, |text| {
            text.parse().unwrap_or_else(|_| {
                eprintln!("{text}: not a number");
                std::process::exit(2)
            })
        })
    }

    /// The count at a place, or what it is if not given.
    pub fn count(&self, at: usize, default: u64) -> usize {
        self.number(at, default) as usize
    }
}

/// What was compared, and how much of it differs.
#[derive(Default)]
pub struct Counts {
    compared: u64,
    differ: u64,
}

impl Counts {
    /// One comparison; the first twenty that differ are printed.
    pub fn add(&mut self, same: bool, line: impl FnOnce() -> String) {
        self.compared += 1;
        if !same {
            self.differ += 1;
            if self.differ <= 20 {
                println!("differs: {}", line());
            }
        }
    }

    /// The last line, with a word for each count, and the end of the program.
    pub fn end(self, compared: &str, differ: &str) -> ! {
        println!("{} {compared}, {} {differ}", self.compared, self.differ);
        std::process::exit(i32::from(self.differ > 0))
    }
}
