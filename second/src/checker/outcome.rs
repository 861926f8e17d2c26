//! The lines of an outcome, read strictly: every number in plain decimal,
//! single spaces, the kinds of lines in their order, nothing else.

use super::Violation;

pub struct Outcome {
    pub told: Told,
    pub sum: u64,
}

pub enum Told {
    Refused { number: usize, place: usize },
    Ran(Ran),
}

pub struct Ran {
    /// P, W, rows and S of the `run` line.
    pub counts: [u64; 4],
    pub words: Vec<FinalWord>,
    pub log: Vec<Five>,
    pub answers: Vec<Five>,
}

pub struct FinalWord {
    pub number: u64,
    pub value: u64,
    pub flips: u64,
}

/// A row of the log or of the answers.
#[derive(Clone, Copy)]
pub struct Five {
    pub position: u64,
    pub process: u64,
    pub row: usize,
    pub verdict: u64,
    pub value: u64,
}

impl Outcome {
    pub fn read(text: &[u8]) -> Result<Outcome, Violation> {
        let lines = split_lines(text).ok_or("there is no outcome in whole lines")?;
        let mut lines = Lines::of(&lines);
        let told = read_told(&mut lines)?;
        let [sum] = lines.next_of("sum").ok_or_else(|| lines.stuck())?;
        if lines.left.is_empty() {
            Ok(Outcome { told, sum })
        } else {
            Err(lines.stuck())
        }
    }
}

fn read_told(lines: &mut Lines) -> Result<Told, Violation> {
    if let Some([number, place]) = lines.next_of("refused") {
        return Ok(Told::Refused {
            number: number as usize,
            place: place as usize,
        });
    }
    let counts = lines.next_of("run").ok_or_else(|| lines.stuck())?;
    Ok(Told::Ran(Ran {
        counts,
        words: lines.all_of("word").map(FinalWord::from).collect(),
        log: lines.all_of("log").map(Five::from).collect(),
        answers: lines.all_of("answer").map(Five::from).collect(),
    }))
}

impl From<[u64; 3]> for FinalWord {
    fn from([number, value, flips]: [u64; 3]) -> FinalWord {
        FinalWord {
            number,
            value,
            flips,
        }
    }
}

impl From<[u64; 5]> for Five {
    fn from([position, process, row, verdict, value]: [u64; 5]) -> Five {
        Five {
            position,
            process,
            row: row as usize,
            verdict,
            value,
        }
    }
}

/// The lines that are still to be read.
struct Lines<'t> {
    left: &'t [&'t str],
}

impl<'t> Lines<'t> {
    fn of(left: &'t [&'t str]) -> Lines<'t> {
        Lines { left }
    }

    /// The N numbers of the next line, if that line has this name.
    fn next_of<const N: usize>(&mut self, name: &str) -> Option<[u64; N]> {
        let (line, rest) = self.left.split_first()?;
        let numbers = numbers_of(line, name)?;
        self.left = rest;
        Some(numbers)
    }

    /// The numbers of all lines of this name that come next.
    fn all_of<'l, const N: usize>(
        &'l mut self,
        name: &'l str,
    ) -> impl Iterator<Item = [u64; N]> + use<'l, 't, N> {
        std::iter::from_fn(move || self.next_of(name))
    }

    fn stuck(&self) -> Violation {
        match self.left.first() {
            Some(line) => format!("the line \"{line}\" is out of place"),
            None => "the outcome is not complete".to_string(),
        }
    }
}

fn split_lines(text: &[u8]) -> Option<Vec<&str>> {
    let text = std::str::from_utf8(text).ok()?;
    Some(text.strip_suffix('\n')?.split('\n').collect())
}

fn numbers_of<const N: usize>(line: &str, name: &str) -> Option<[u64; N]> {
    let numbers = line.strip_prefix(name)?.strip_prefix(' ')?;
    let numbers: Vec<u64> = numbers
        .split(' ')
        .map(plain_number)
        .collect::<Option<_>>()?;
    numbers.try_into().ok()
}

/// A number of the outcome: decimal digits without a needless 0 in front. It
/// is a 32-bit number, also the flip bits of a word, so later arithmetic in 64 bits cannot overflow.
fn plain_number(digits: &str) -> Option<u64> {
    let number: u32 = digits.parse().ok()?;
    (number.to_string() == digits).then_some(u64::from(number))
}
