//! Generators of lists: small ones and large ones of eight kinds, with stop counts of several sorts; and of lists as they are lent, sound and not.
use super::{Plain, Random};
use kandurzo::{Head, Pair};
use std::collections::BTreeSet;

/// The pairs with stop counts of one sort: all 1; few; any; few or nearly as many as there can be; all 1,000; mostly few, seldom many.
pub fn with_counts(random: &mut Random, n: usize, ends: impl IntoIterator<Item = (usize, usize)>) -> Plain {
    let sort = random.below(8);
    let mut count = || match sort {
        0..2 => 1,
        2 => 1 + random.below(3),
        3 => 1 + random.below(9),
        4 => [1, 2, 999, 1000][random.below(4)],
        5 => 1000 / (1 + random.below(1000)),
        6 if n % 4 == 0 => 1000,
        _ => 1 + random.below(1000),
    };
    Plain { n, pairs: ends.into_iter().map(|(a, b)| (a, b, count())).collect() }
}

/// Of n modules, as far as there are so many, m random pairs.
fn drawn(random: &mut Random, n: usize, m: usize) -> BTreeSet<(usize, usize)> {
    let mut ends = BTreeSet::new();
    let m = m.min(n * (n - 1) / 2).min(4096);
    while ends.len() < m {
        let (a, b) = (random.below(n), random.below(n));
        if a != b {
            ends.insert((a.min(b), a.max(b)));
        }
    }
    ends
}

/// A list of n modules and, as far as there are so many, m random pairs.
pub fn uniform(random: &mut Random, n: usize, m: usize) -> Plain {
    let ends = drawn(random, n, m);
    with_counts(random, n, ends)
}

/// A list of at most 12 modules.
pub fn small(random: &mut Random) -> Plain {
    let n = 1 + random.below(12);
    let m = random.below(n * (n - 1) / 2 + 1);
    uniform(random, n, m)
}

/// A list of up to 512 modules and 4,096 pairs, of one of eight kinds.
pub fn large(random: &mut Random) -> Plain {
    let n = if random.once_in(3) { 512 } else { 13 + random.below(500) };
    let mut ends = BTreeSet::new();
    let step = 1 + random.below(20);
    match random.below(8) {
        0 => ends = drawn(random, n, 4096),
        1 => {
            let m = random.below(4097);
            ends = drawn(random, n, m);
        }
        // bands: each module with the next few
        2 => ends.extend((0..n).flat_map(|v| (v + 1..n.min(v + 1 + step.min(8))).map(move |u| (v, u)))),
        // a cycle
        3 => ends.extend((0..n).map(|v| (v.min((v + 1) % n), v.max((v + 1) % n)))),
        // equal cliques side by side
        4 => ends.extend((0..n).flat_map(|v| (v + 1..n).filter(move |u| u / step == v / step).map(move |u| (v, u)))),
        // a clique with a chain
        5 => {
            let k = n.min(2 + random.below(80));
            ends.extend((0..k).flat_map(|v| (0..v).map(move |u| (u, v))));
            ends.extend((k..n).map(|v| (v - 1, v)));
        }
        // a group of many pairs among few
        6 => {
            ends.extend(drawn(random, n.min(40), 500));
            ends.extend(drawn(random, n, 1000));
        }
        // low numbers in most pairs
        _ => (0..3000).for_each(|_| {
            let (a, b) = (random.below(n), random.below(n));
            let (a, b) = (a * a / n, b * b * b / (n * n));
            if a != b {
                ends.insert((a.min(b), a.max(b)));
            }
        }),
    }
    with_counts(random, n, ends.into_iter().take(4096))
}

/// Mostly a small list, sometimes a large one.
pub fn any(random: &mut Random) -> Plain {
    if random.once_in(12) {
        large(random)
    } else {
        small(random)
    }
}

/// The same, but in one of 200 draws a list of 4,096 pairs.
pub fn any_or_full(random: &mut Random) -> Plain {
    if random.once_in(200) {
        uniform(random, 200, 4096)
    } else {
        any(random)
    }
}

/// The first list drawn that has a pair.
pub fn with_a_pair(random: &mut Random, draw: impl Fn(&mut Random) -> Plain) -> Plain {
    std::iter::repeat_with(|| draw(random)).find(|drawn| !drawn.pairs.is_empty()).unwrap()
}

/// A head and a lent list with a few records of anything past the held ones, and in one of four draws something wrong with them.
pub fn lent(random: &mut Random, plain: &Plain) -> (Head, Vec<Pair>) {
    let (mut head, mut list) = (plain.head(), plain.records());
    let m = list.len();
    for _ in 0..random.below(4) {
        list.push(Pair { a: random.next() as u16, b: random.next() as u16, w: random.next() as u16 });
    }
    if random.once_in(4) {
        spoil(random, &mut head, &mut list, m);
    }
    (head, list)
}

/// Head and list made to disagree, mostly: where the list has too few pairs for it, the last one is left out, if there is one.
fn spoil(random: &mut Random, head: &mut Head, list: &mut Vec<Pair>, m: usize) {
    let j = random.below(m.max(1));
    match random.below(14) {
        0 => head.n = 0,
        1 => head.n = 513,
        2 => head.n = u32::MAX - random.below(3) as u32,
        3 => head.m = list.len() as u32 + 1,
        4 => head.m = 0x1_0000 + m as u32,
        5 => {
            head.m = 4097;
            list.resize(4097, Pair::default());
        }
        6 if m > 0 => list[j].b = list[j].a,
        7 if m > 0 => (list[j].a, list[j].b) = (list[j].b, list[j].a),
        8 if m > 0 => list[m - 1].b = head.n as u16,
        9 if m > 1 => list.swap(0, m - 1),
        10 if m > 1 => list[m - 1] = list[m - 2],
        // the same pair twice, with a higher count at the second place
        11 if m > 1 => list[m - 1] = Pair { w: list[m - 2].w + 1, ..list[m - 2] },
        12 if m > 0 => list[j].w = 0,
        13 if m > 0 => list[j].w = [1001, 1002, 2000, 0x8000, 0x8001, 0xffff][random.below(6)],
        _ => head.m = m.saturating_sub(1) as u32,
    }
}
