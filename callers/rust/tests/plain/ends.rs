//! What add, remove and place share: the two modules that they are passed, and the refusals that come first in all three; and the count that add is passed.
use super::{agree, Plain, Random};
use kandurzo::{Head, Pair};

/// A module: mostly of the list, else just past it or far out.
fn module(random: &mut Random, n: usize) -> u32 {
    match random.below(12) {
        0 => n as u32 + random.below(2) as u32,
        1 => 0x1_0000 + random.below(n) as u32,
        _ => random.below(n) as u32,
    }
}

/// Two modules: in one of three draws those of a held pair, in either order, else any two.
pub fn two(random: &mut Random, list: &Plain) -> (u32, u32) {
    let any = (module(random, list.n), module(random, list.n));
    if list.pairs.is_empty() || !random.once_in(3) {
        return any;
    }
    let (x, y, _) = list.pairs[random.below(list.pairs.len())];
    if random.once_in(2) {
        (x as u32, y as u32)
    } else {
        (y as u32, x as u32)
    }
}

/// The pair of two modules that the list has, smaller first.
pub fn ends(a: u32, b: u32) -> (u16, u16) {
    (a.min(b) as u16, a.max(b) as u16)
}

/// Its record with this count.
pub fn pair(a: u32, b: u32, w: u32) -> Pair {
    Pair { a: a.min(b) as u16, b: a.max(b) as u16, w: w as u16 }
}

/// The count with which the pair is held, 0 where it is not.
pub fn count(list: &Plain, a: u32, b: u32) -> u32 {
    let there = |pair: &&(usize, usize, usize)| (pair.0 as u32, pair.1 as u32) == (a.min(b), a.max(b));
    list.pairs.iter().find(there).map_or(0, |pair| pair.2 as u32)
}

/// A count to add to one that is held: mostly in range, be it that the sum is just 1,000, or just above; else outside.
pub fn stops(random: &mut Random, held: u32) -> u32 {
    match random.below(12) {
        0 => [0, 1001, 1002, 2000, 0x1_0000, 0x1_0001, 0x1_03e8, 0x8000_0000, 0x8000_0001, u32::MAX, u32::MAX - 999]
            [random.below(11)],
        1 => 1000 - held,
        2 => 1001 - held,
        3 => 1000,
        4 => 1,
        5..8 => 1 + random.below(9) as u32,
        _ => 1 + random.below(1000) as u32,
    }
}

/// The first of 13, 5 and 4 whose condition holds, or 0.
pub fn number(head: Head, list: &[Pair], a: u32, b: u32) -> u32 {
    if !agree(head, list) {
        13
    } else if a == b {
        5
    } else if a >= head.n || b >= head.n {
        4
    } else {
        0
    }
}
