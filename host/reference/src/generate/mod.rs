//! Makes case files: directed cases for every answer of every entry.
//!
//! Each code has sorts of case, which take turns by their shares. A sort aims at
//! one answer, or makes one kind of input.

mod besides;
pub mod carrier;
mod damage;
mod deep;
mod extensions;
mod fault;
mod forwards;
mod frames;
mod histories;
mod indexes;
pub mod large;
mod line;
pub mod listings;
mod maps;
mod payload;
mod reading;
pub mod relay;
pub mod rng;
mod runs;
mod salvages;
mod scalars;
mod sheet;
mod sorts;
pub mod table;
mod value;
mod value_frames;

use crate::cases::Case;
use rng::Rng;
use sorts::{ACROSS, CODES, LATER_CODES};

/// Makes one case.
type Maker = fn(&mut Rng) -> Case;

/// One sort of case: its share of the turns, the answer it must give, if any,
/// and its maker.
struct Sort {
    share: usize,
    aim: Option<u32>,
    make: Maker,
}

/// A sort that may give any answer.
const fn any(share: usize, make: Maker) -> Sort {
    Sort {
        share,
        aim: None,
        make,
    }
}

/// A sort that must give one answer.
const fn aim(share: usize, number: u32, make: Maker) -> Sort {
    Sort {
        share,
        aim: Some(number),
        make,
    }
}

/// The sorts of one code.
type Sorts = &'static [Sort];

/// A code, how often it comes up among all, and its sorts.
type Code = (u8, usize, Sorts);

/// A code with a random stream of its own, so that its cases do not depend on
/// which other codes there are.
struct Stream {
    share: usize,
    sorts: Sorts,
    rng: Rng,
    turn: usize,
}

/// Makes cases one after the other, always the same from the same seed.
pub struct Generator {
    rng: Rng,
    codes: Vec<Code>,
    turns: [usize; 256],
    later: Vec<Stream>,
    choice: Rng,
    large: Large,
}

/// Large cases of the codes in turn, for one case in so many; 0 is none.
struct Large {
    one_in: usize,
    streams: Vec<Stream>,
    turn: usize,
}

/// The codes that there are cases for.
pub fn codes() -> Vec<u8> {
    let codes = CODES.iter().chain(LATER_CODES);
    codes.map(|&(code, ..)| code).collect()
}

impl Generator {
    /// A generator for some codes; none named means all.
    pub fn new(seed: u64, codes: &[u8]) -> Self {
        let wanted = |(code, ..): &&Code| codes.is_empty() || codes.contains(code);
        let later = LATER_CODES.iter().filter(wanted);
        Generator {
            rng: Rng::new(seed),
            codes: CODES.iter().filter(wanted).copied().collect(),
            turns: [0; 256],
            later: later.map(|code| Stream::new(seed, code)).collect(),
            choice: Rng::new(!seed),
            large: Large::new(seed, codes, 0),
        }
    }

    /// The same with large cases among them, as the random comparison has them.
    pub fn compared(seed: u64, codes: &[u8]) -> Self {
        Generator {
            large: Large::new(seed, codes, large::ONE_LARGE_IN),
            ..Generator::new(seed, codes)
        }
    }

    /// A generator for large cases alone, of some codes in turn; none named
    /// means all.
    pub fn large(seed: u64, codes: &[u8]) -> Self {
        Generator {
            large: Large::new(seed, codes, 1),
            ..Generator::new(seed, codes)
        }
    }

    /// A generator for the reader's cases in which table and payload are of
    /// two tables, one of which extends the other.
    pub fn across(seed: u64) -> Self {
        Generator {
            rng: Rng::new(seed),
            codes: vec![(3, 1, ACROSS)],
            turns: [0; 256],
            later: Vec::new(),
            choice: Rng::new(!seed),
            large: Large::new(seed, &[], 0),
        }
    }

    /// The next case, or none if no code is known.
    pub fn case(&mut self) -> Option<Case> {
        if self.large.one_in > 0 && self.choice.one_in(self.large.one_in) {
            return self.large.case();
        }
        let first: usize = self.codes.iter().map(|(_, share, _)| share).sum();
        let later: usize = self.later.iter().map(|stream| stream.share).sum();
        let mut place = self.choice.below(first + later);
        for stream in &mut self.later {
            if place < stream.share {
                return Some(stream.case());
            }
            place -= stream.share;
        }
        self.first_case()
    }

    /// The next case of the codes that share one random stream.
    fn first_case(&mut self) -> Option<Case> {
        let total: usize = self.codes.iter().map(|(_, share, _)| share).sum();
        let mut place = self.rng.below(total);
        for &(code, share, sorts) in &self.codes {
            if place < share {
                let turn = self.turns[code as usize];
                self.turns[code as usize] += 1;
                return Some(sort_at(sorts, turn).case(&mut self.rng));
            }
            place -= share;
        }
        None
    }
}

impl Large {
    fn new(seed: u64, codes: &[u8], one_in: usize) -> Self {
        let wanted = |(code, _): &&(u8, Sorts)| codes.is_empty() || codes.contains(code);
        let sorts = large::CODES.iter().filter(wanted);
        Large {
            one_in,
            // Not the stream of the code's other cases.
            streams: sorts
                .map(|&(code, sorts)| Stream::new(seed.wrapping_add(1 << 40), &(code, 1, sorts)))
                .collect(),
            turn: 0,
        }
    }

    fn case(&mut self) -> Option<Case> {
        let streams = self.streams.len();
        let stream = self.streams.get_mut(self.turn % streams.max(1))?;
        self.turn += 1;
        Some(stream.case())
    }
}

impl Stream {
    fn new(seed: u64, &(code, share, sorts): &Code) -> Self {
        Stream {
            share,
            sorts,
            rng: Rng::new(seed ^ u64::from(code) << 56),
            turn: 0,
        }
    }

    fn case(&mut self) -> Case {
        let turn = self.turn;
        self.turn += 1;
        sort_at(self.sorts, turn).case(&mut self.rng)
    }
}

impl Sort {
    /// A case of this sort; one that misses its aim is made anew, as long as
    /// there is hope.
    fn case(&self, rng: &mut Rng) -> Case {
        for _ in 0..200 {
            let case = (self.make)(rng);
            if self
                .aim
                .is_none_or(|number| case.numbers().contains(&number))
            {
                return case;
            }
        }
        (self.make)(rng)
    }
}

/// The sort at a turn. Steps of about three fifths spread the turns of a sort
/// among those of the others.
fn sort_at(sorts: Sorts, turn: usize) -> &'static Sort {
    let total: usize = sorts.iter().map(|sort| sort.share).sum();
    let step = (total * 3 / 5..=total).find(|&step| coprime(step, total));
    let mut place = turn * step.unwrap_or(1) % total;
    for sort in sorts {
        if place < sort.share {
            return sort;
        }
        place -= sort.share;
    }
    &sorts[0]
}

/// A case of any of the sorts, or of those that aim at a number.
fn draw(rng: &mut Rng, sorts: Sorts, number: Option<u32>) -> Case {
    let aims = |sort: &&Sort| number.is_none() || sort.aim == number;
    let total = sorts.iter().filter(aims).map(|sort| sort.share).sum();
    let mut place = rng.below(total);
    for sort in sorts.iter().filter(aims) {
        if place < sort.share {
            return sort.case(rng);
        }
        place -= sort.share;
    }
    sorts[0].case(rng)
}

fn coprime(a: usize, b: usize) -> bool {
    match b {
        0 => a == 1,
        _ => coprime(b, a % b),
    }
}
