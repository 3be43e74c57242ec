//! What the tests over lent buffers share: buffers of anything, what they hold after a call, the numbers met, and the old order of 5 and 4.
use super::{Plain, Random};
use kandurzo::Pair;

pub const WORK: usize = 16384;

/// The numbers there are: 0 and those of the documents, up to 21.
const NUMBERS: usize = 22;

/// Numbers met, with how often.
#[derive(Default)]
pub struct Met([usize; NUMBERS]);

impl Met {
    pub fn see(&mut self, number: u32) {
        self.0[number as usize] += 1;
    }

    pub fn are(&self, wanted: &[usize]) {
        self.are_each(1, wanted);
    }

    /// These and no others, each at least so often.
    pub fn are_each(&self, least: usize, wanted: &[usize]) {
        let met: Vec<usize> = (0..NUMBERS).filter(|&k| self.0[k] > 0).collect();
        assert_eq!(met, wanted, "numbers met: {self}");
        assert!(wanted.iter().all(|&k| self.0[k] >= least), "each at least {least} times: {self}");
    }
}

impl std::fmt::Display for Met {
    fn fmt(&self, out: &mut std::fmt::Formatter) -> std::fmt::Result {
        (0..NUMBERS).filter(|&k| self.0[k] > 0).try_for_each(|k| write!(out, "{k}: {} times; ", self.0[k]))
    }
}

/// Whether the old order of 5 and 4 gives another answer than the new: 4 for 5, and in no other way.
pub fn from_4_to_5(old: Result<Plain, u32>, new: &Result<Plain, u32>) -> bool {
    match (old, new) {
        (Err(4), Err(5)) => true,
        (Err(old), Err(new)) => {
            assert_eq!(old, *new);
            false
        }
        (old, new) => {
            let (old, new) = (old.unwrap(), new.as_ref().unwrap());
            assert_eq!((old.head(), old.records()), (new.head(), new.records()));
            false
        }
    }
}

pub fn bytes(random: &mut Random, length: usize) -> Vec<u8> {
    (0..length).map(|_| random.next() as u8).collect()
}

pub fn halves(random: &mut Random, length: usize) -> Vec<u16> {
    (0..length).map(|_| random.next() as u16).collect()
}

pub fn words(random: &mut Random, length: usize) -> Vec<u32> {
    (0..length).map(|_| random.next() as u32).collect()
}

pub fn pairs(random: &mut Random, length: usize) -> Vec<Pair> {
    (0..length).map(|_| Pair { a: random.next() as u16, b: random.next() as u16, w: random.next() as u16 }).collect()
}

pub fn work(random: &mut Random) -> Vec<u32> {
    let length = random.length(WORK);
    words(random, length)
}

/// Untouched after 12 or 13; 16,384 zero words after any other return; words past them stay.
pub fn work_after(number: u32, before: &[u32]) -> Vec<u32> {
    let mut after = before.to_vec();
    if number != 12 && number != 13 {
        after[..WORK].fill(0);
    }
    after
}

/// The new entries in front of the old ones.
pub fn in_front<T: Clone>(new: &[T], old: &[T]) -> Vec<T> {
    [new, &old[new.len()..]].concat()
}
