//! Kandurzo from Rust: the largest group of greatest ratio in a list of fault pairs, each with its stop count, with core numbers and a load sheet that
//! shows that no group is denser; and kits, groups with at least k modules (document 01; document 02, items 1 to 4, 6 and 7).
//!
//! ```
//! let tail = b"modules=5\npairs=7\n0,1,1\n0,2,1\n0,3,1\n1,2,1\n1,3,1\n2,3,1\n3,4,1\n";
//! let mut list = kandurzo::List::read(tail)?;
//! let found = list.solve()?;
//! assert_eq!((found.p, found.q), (6, 4));
//! assert_eq!(found.group().collect::<Vec<_>>(), [0, 1, 2, 3]);
//! assert_eq!(list.check(&found.members, &found.shares)?, (6, 4));
//! list.add(4, 3, 4)?; // four stops more of the pair 3,4
//! let found = list.solve()?;
//! assert_eq!((found.p, found.q), (5, 2));
//! assert_eq!(found.group().collect::<Vec<_>>(), [3, 4]);
//! # Ok::<(), kandurzo::Refusal>(())
//! ```
//!
//! [`List`] owns every buffer, also the one that the calls work in, which is why those that need it take `&mut self`; [`ffi`] has the same calls over the
//! caller's own buffers. A call uses some of its thread's stack besides, at most [`STACK`] bytes; that is more than some threads have.

pub mod ffi;

pub use ffi::{Head, Pair};
use std::fmt;

/// The most pairs that a list can hold.
pub const PAIRS: usize = 4096;
/// The highest stop count of a pair.
pub const STOPS: u16 = 1000;
/// The words of the work buffer.
pub const WORK: usize = 16384;
/// The bytes of the text buffer.
pub const TEXT: usize = 65536;
/// Bytes of stack that are enough for any call of the library; [`ffi::stack`] has them by call.
pub const STACK: usize = ffi::stack::SOLVE;

/// Why a call declined: document 01's number, 1 to 15, or document 02's, 16 to 21.
#[derive(Clone, Copy, Debug, PartialEq, Eq, Hash)]
pub struct Refusal(u32);

impl Refusal {
    /// The number as a result: 0 is no refusal.
    fn of(number: u32) -> Result<(), Refusal> {
        match number {
            0 => Ok(()),
            number => Err(Refusal(number)),
        }
    }

    /// The documents' number.
    pub fn number(self) -> u32 {
        self.0
    }

    /// The documents' text, that of 10, 11, 13 and 15 shortened.
    pub fn text(self) -> &'static str {
        match self.0 {
            1 => "a line is missing, isn't of the form due there, or lacks its LF",
            2 => "N outside 1 to 512",
            3 => "the file's M above 4,096",
            4 => "a module number is N or more",
            5 => "a module is paired with itself",
            6 => "bytes follow the last pair line",
            7 => "a member byte above 1 among the first N, or none is 1",
            8 => "a share above W times Q among the first M",
            9 => "a load above P",
            10 => "the pair is named on an earlier line",
            11 => "no free record",
            12 => "a lent buffer is shorter than stated",
            13 => "head and list disagree",
            14 => "the pair to remove is not held",
            15 => "no split at the group's size keeps all loads at or below P",
            16 => "a line of none of these forms, out of place, or lacking its LF, or no `p` line",
            17 => "the count of `e` lines isn't M",
            18 => "W outside 1 to 1,000",
            19 => "the raised count passes 1,000",
            20 => "the list holds no pair",
            21 => "k outside 1 to N",
            _ => "a number that the documents do not have",
        }
    }
}

impl fmt::Display for Refusal {
    fn fmt(&self, out: &mut fmt::Formatter) -> fmt::Result {
        write!(out, "{}: {}", self.0, self.text())
    }
}

impl std::error::Error for Refusal {}

/// A pair list that owns its head, 4,096 records and a work buffer. Head and list always agree.
#[derive(Clone)]
pub struct List {
    head: Head,
    records: Vec<Pair>,
    work: Vec<u32>,
}

impl fmt::Debug for List {
    fn fmt(&self, out: &mut fmt::Formatter) -> fmt::Result {
        out.debug_struct("List").field("modules", &self.modules()).field("pairs", &self.pairs()).finish()
    }
}

/// Where a pair stands in a list, or would stand.
#[derive(Clone, Copy, Debug, PartialEq, Eq)]
pub struct Place {
    /// Whether the pair is held.
    pub held: bool,
    /// How many held pairs are smaller: the pair's index in [`List::pairs`] if it is held, else the one that it gets when it is added.
    pub at: usize,
}

/// Leaving order and core numbers, N entries each.
#[derive(Clone, Debug, PartialEq, Eq)]
pub struct Peeling {
    /// The modules in the order in which they leave.
    pub order: Vec<u16>,
    /// The core number of each module: sums of stop counts.
    pub cores: Vec<u32>,
}

/// The found group: the largest group of greatest ratio.
#[derive(Clone, Debug, PartialEq)]
pub struct Solution {
    /// P, its inside count: the sum of the stop counts of its pairs.
    pub p: u32,
    /// Q, its number of modules.
    pub q: u32,
    /// K = P/Q rounded up.
    pub k: u32,
    /// The number of modules in the core of order K.
    pub core_size: u32,
    /// P divided by Q, rounded once.
    pub ratio: f64,
    /// For each module 1 if it is in the group, else 0.
    pub members: Vec<u8>,
    /// The core number of each module.
    pub cores: Vec<u32>,
    /// The load sheet: of each pair's W times Q units the smaller module receives the share, the larger one the rest; no load is above P.
    pub shares: Vec<u32>,
}

impl Solution {
    /// The group's modules, rising.
    pub fn group(&self) -> impl Iterator<Item = usize> + '_ {
        rising(&self.members)
    }
}

/// A kit: of the sets left over in the leaving order with at least k modules the one of greatest ratio; of equals, the larger.
#[derive(Clone, Debug, PartialEq, Eq)]
pub struct Kit {
    /// P, its inside count: the sum of the stop counts of its pairs.
    pub p: u32,
    /// Q, its number of modules, k or more.
    pub q: u32,
    /// For each module 1 if it is in the kit, else 0.
    pub members: Vec<u8>,
}

impl Kit {
    /// The kit's modules, rising.
    pub fn group(&self) -> impl Iterator<Item = usize> + '_ {
        rising(&self.members)
    }
}

/// The modules whose byte is 1.
fn rising(members: &[u8]) -> impl Iterator<Item = usize> + '_ {
    (0..members.len()).filter(|&v| members[v] == 1)
}

impl List {
    /// A list of n modules without pairs. Refuses by 2.
    pub fn new(n: u32) -> Result<List, Refusal> {
        let answer = ffi::start(n);
        Refusal::of(answer.number)?;
        Ok(List { head: answer.head, records: vec![Pair::default(); PAIRS], work: vec![0; WORK] })
    }

    /// The list of a pair file: `modules=N`, `pairs=M` and M lines `A,B,W`. Refuses by 1, 2; 1, 3; 1, 5, 4, 18, 10; 6.
    pub fn read(bytes: &[u8]) -> Result<List, Refusal> {
        let (mut records, mut work) = (vec![Pair::default(); PAIRS], vec![0; WORK]);
        let answer = ffi::read(bytes, &mut records, &mut work);
        Refusal::of(answer.number)?;
        Ok(List { head: answer.head, records, work })
    }

    /// The list of a DIMACS edge file, whose modules are numbered from 1; each pair has the count 1. Refuses by 16, 2, 3; 16, 17, 5, 4, 10; 16, 17.
    pub fn read_dimacs(bytes: &[u8]) -> Result<List, Refusal> {
        let (mut records, mut work) = (vec![Pair::default(); PAIRS], vec![0; WORK]);
        let answer = ffi::read_dimacs(bytes, &mut records, &mut work);
        Refusal::of(answer.number)?;
        Ok(List { head: answer.head, records, work })
    }

    /// N.
    pub fn modules(&self) -> usize {
        self.head.n as usize
    }

    /// The held pairs with their stop counts, smaller module first, in rising order.
    pub fn pairs(&self) -> &[Pair] {
        &self.records[..self.head.m as usize]
    }

    /// The list's DIMACS edge file: no comments, the pairs in list order, modules numbered from 1, no counts. Read again it gives the same pairs with the
    /// count 1 each: the same list where all counts are 1. Never refuses.
    ///
    /// ```
    /// let mut list = kandurzo::List::read_dimacs(b"c three modules\np edge 3 2\ne 3 2\nc\ne 1 2\n")?;
    /// assert_eq!(list.pairs(), [kandurzo::Pair { a: 0, b: 1, w: 1 }, kandurzo::Pair { a: 1, b: 2, w: 1 }]);
    /// list.add(1, 2, 8)?;
    /// assert_eq!(list.write_dimacs()?, b"p edge 3 2\ne 1 2\ne 2 3\n");
    /// # Ok::<(), kandurzo::Refusal>(())
    /// ```
    pub fn write_dimacs(&self) -> Result<Vec<u8>, Refusal> {
        let mut text = vec![0; TEXT];
        let answer = ffi::write_dimacs(self.head, &self.records, &mut text);
        Refusal::of(answer.number)?;
        text.truncate(answer.length as usize);
        Ok(text)
    }

    /// Adds w stops of the pair of a and b, in either order: a held pair's count is raised by w, a new pair gets the count w. Refuses by 5, 4, 18, 19, 11: a
    /// module with itself gives 5, also where the list has no such module; a full list still takes stops of held pairs.
    ///
    /// ```
    /// use kandurzo::{List, Pair};
    /// let mut list = List::new(3)?;
    /// list.add(2, 0, 990)?;
    /// list.add(0, 2, 10)?;
    /// assert_eq!(list.pairs(), [Pair { a: 0, b: 2, w: 1000 }]);
    /// assert_eq!(list.add(0, 2, 1).unwrap_err().to_string(), "19: the raised count passes 1,000");
    /// # Ok::<(), kandurzo::Refusal>(())
    /// ```
    pub fn add(&mut self, a: u32, b: u32, w: u32) -> Result<(), Refusal> {
        Refusal::of(ffi::add_to(&mut self.head, &mut self.records, a, b, w))
    }

    /// Removes the pair of a and b, in either order, with its whole count. Refuses by 5, 4, 14: a module with itself gives 5, as in `add`.
    pub fn remove(&mut self, a: u32, b: u32) -> Result<(), Refusal> {
        Refusal::of(ffi::remove_from(&mut self.head, &mut self.records, a, b))
    }

    /// Whether the pair of a and b, in either order, is held, and its place among the held pairs, or the place where it would go. Refuses by 5, 4: a
    /// module with itself gives 5, as in `add`.
    ///
    /// ```
    /// use kandurzo::{List, Pair, Place};
    /// let mut list = List::read(b"modules=4\npairs=2\n0,1,7\n2,3,1\n")?;
    /// let place = list.place(2, 1)?;
    /// assert_eq!(place, Place { held: false, at: 1 });
    /// let (before, after) = list.pairs().split_at(place.at);
    /// assert_eq!((before.last(), after.first()), (Some(&Pair { a: 0, b: 1, w: 7 }), Some(&Pair { a: 2, b: 3, w: 1 })));
    /// list.add(2, 1, 5)?;
    /// assert_eq!(list.pairs()[place.at], Pair { a: 1, b: 2, w: 5 });
    /// # Ok::<(), kandurzo::Refusal>(())
    /// ```
    pub fn place(&self, a: u32, b: u32) -> Result<Place, Refusal> {
        let answer = ffi::place(self.head, &self.records, a, b);
        Refusal::of(answer.number)?;
        Ok(Place { held: answer.held == 1, at: answer.at as usize })
    }

    /// Leaving order and core numbers, both by sums of stop counts. Never refuses.
    pub fn peel(&mut self) -> Result<Peeling, Refusal> {
        let n = self.modules();
        let (mut order, mut cores) = (vec![0; n], vec![0; n]);
        Refusal::of(ffi::peel(self.head, &self.records, &mut order, &mut cores, &mut self.work))?;
        Ok(Peeling { order, cores })
    }

    /// The found group, core numbers and the load sheet. Refuses by 20: a list without pairs has no group.
    ///
    /// ```
    /// let mut list = kandurzo::List::new(3)?;
    /// assert_eq!(list.solve().unwrap_err().to_string(), "20: the list holds no pair");
    /// list.add(0, 2, 1)?;
    /// assert_eq!(list.solve()?.group().collect::<Vec<_>>(), [0, 2]);
    /// # Ok::<(), kandurzo::Refusal>(())
    /// ```
    pub fn solve(&mut self) -> Result<Solution, Refusal> {
        let n = self.modules();
        let (mut members, mut cores, mut shares) = (vec![0; n], vec![0; n], vec![0; self.pairs().len()]);
        let found = ffi::solve(self.head, &self.records, &mut members, &mut cores, &mut shares, &mut self.work);
        Refusal::of(found.number)?;
        let ffi::Solved { p, q, k, coresize: core_size, ratio, .. } = found;
        Ok(Solution { p, q, k, core_size, ratio, members, cores, shares })
    }

    /// P and Q of a group, if the shares are a split at size Q, W times Q units for each pair, with no load above P: then no group is denser. Refuses by
    /// 12, 20, 7, 8, 9.
    pub fn check(&mut self, members: &[u8], shares: &[u32]) -> Result<(u32, u32), Refusal> {
        let verdict = ffi::check(self.head, &self.records, members, shares, &mut self.work);
        Refusal::of(verdict.number)?;
        Ok((verdict.p, verdict.q))
    }

    /// The surplus of the first group against the second: above zero exactly if the first is denser. Refuses by 12, 7.
    pub fn surplus(&self, first: &[u8], second: &[u8]) -> Result<i64, Refusal> {
        let answer = ffi::surplus(self.head, &self.records, first, second);
        Refusal::of(answer.number)?;
        Ok(answer.value)
    }

    /// A group with at least k modules, for when suppliers pack kits from a least size k and the found group may have fewer modules. Three times its ratio is
    /// no less than the ratio of any group with at least k modules. Refuses by 20, 21.
    ///
    /// ```
    /// let mut list = kandurzo::List::read(b"modules=5\npairs=4\n0,1,9\n1,2,2\n2,3,2\n3,4,1\n")?;
    /// assert_eq!(list.solve()?.group().collect::<Vec<_>>(), [0, 1]);
    /// let kit = list.kit(3)?;
    /// assert_eq!((kit.p, kit.q), (11, 3));
    /// assert_eq!(kit.group().collect::<Vec<_>>(), [0, 1, 2]);
    /// assert_eq!(list.kit(6).unwrap_err().to_string(), "21: k outside 1 to N");
    /// # Ok::<(), kandurzo::Refusal>(())
    /// ```
    pub fn kit(&mut self, k: u32) -> Result<Kit, Refusal> {
        let mut members = vec![0; self.modules()];
        let kit = ffi::kit(self.head, &self.records, k, &mut members, &mut self.work);
        Refusal::of(kit.number)?;
        Ok(Kit { p: kit.p, q: kit.q, members })
    }
}
