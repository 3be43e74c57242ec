//! Stop counts (document 02, item 4), by hand and on generated lists: add, remove, and what every call refuses. What peel, solve, check and surplus make of
//! them is in stops.rs, kits are in kits.rs, pair files are in files.rs, and each other call against the plain computation is in calls.rs.
mod plain;

use kandurzo::ffi::{self, Changed};
use kandurzo::{Head, List, Pair, PAIRS, STOPS};
use plain::buffers::{in_front, pairs, WORK};
use plain::{ends, files, lists, Random};

/// Add and add_to on copies of one list: the number, the same from both, the head and the list after it, also the same.
fn add(head: Head, list: &[Pair], a: u32, b: u32, w: u32) -> (u32, Head, Vec<Pair>) {
    let (mut own, mut first, mut second) = (head, list.to_vec(), list.to_vec());
    let Changed { number, head: new } = ffi::add(head, &mut first, a, b, w);
    assert_eq!((ffi::add_to(&mut own, &mut second, a, b, w), own), (number, new), "{a},{b},{w}");
    assert!(first == second, "the list after {a},{b},{w}");
    if number != 0 {
        assert!(new == head && first == list, "after {number} of {a},{b},{w}");
    }
    (number, new, first)
}

/// Counts outside 1 to 1,000, some of them with an innocent lower half.
const OUTSIDE: [u32; 12] =
    [0, 1001, 1002, 2000, 9999, 0xffff, 0x1_0000, 0x1_0001, 0x1_03e8, 0x8000_0001, u32::MAX - 999, u32::MAX];

/// Every count that a pair can have, with every count up to 1,001 more: 18 for 0 and 1,001, 19 where the sum is above 1,000, else the sum.
#[test]
fn every_sum() {
    let head = Head { n: 2, m: 1 };
    for count in 1..=STOPS {
        let mut list = [Pair { a: 0, b: 1, w: count }];
        for w in 0..=1001u32 {
            let sum = count as u32 + w;
            let number = if w == 0 || w == 1001 { 18 } else { 19 * u32::from(sum > 1000) };
            assert_eq!(ffi::add(head, &mut list, 1, 0, w), Changed { number, head }, "{w} more than {count}");
            assert_eq!(list, [Pair { a: 0, b: 1, w: if number == 0 { sum as u16 } else { count } }]);
            list[0].w = count;
        }
    }
}

#[test]
fn counts_of_a_new_pair() {
    for w in 1..=1000 {
        let (number, head, list) = add(Head { n: 4, m: 0 }, &[Pair { a: 9, b: 9, w: 9 }; 2], 3, 2, w);
        assert_eq!((number, head), (0, Head { n: 4, m: 1 }));
        assert_eq!(list, [Pair { a: 2, b: 3, w: w as u16 }, Pair { a: 9, b: 9, w: 9 }]);
    }
    for w in OUTSIDE {
        assert_eq!(add(Head { n: 4, m: 0 }, &[Pair::default(); 2], 3, 2, w).0, 18, "{w}");
        assert_eq!(add(Head { n: 4, m: 0 }, &[], 3, 2, w).0, 18, "18 before 11: {w}");
    }
}

/// 13, 5, 4, 18, 19, 11, alone and together: the first in this order is given. The list is full; its last pair has all the stops that it can have.
#[test]
fn refusals_in_order() {
    let list = [Pair { a: 0, b: 1, w: 1 }, Pair { a: 0, b: 2, w: 400 }, Pair { a: 2, b: 3, w: 1000 }];
    let head = Head { n: 4, m: 3 };
    let spoiled = [list[0], list[1], Pair { w: 1001, ..list[2] }];
    for (a, b) in [(2, 2), (4, 4), (9, 9), (u32::MAX, u32::MAX), (0, 4), (5, 4), (3, 0x1_0002), (0, 1), (3, 2), (1, 2)]
    {
        for w in OUTSIDE.into_iter().chain([1, 600, 601, 1000]) {
            assert_eq!(add(head, &spoiled, a, b, w).0, 13, "{a},{b},{w}");
            assert_eq!(add(Head { n: 3, m: 3 }, &list, a, b, w).0, 13, "{a},{b},{w}");
        }
    }
    for w in OUTSIDE {
        // a module twice; one unknown; held, with room for stops and without; and new: before 19 and before 11
        let twice = [0, 2, 3, 4, 9, u32::MAX].map(|a| (a, a, 5));
        let unknown = [(0, 4, 4), (4, 0, 4), (5, 4, 4), (2, 0x1_0003, 4)];
        let others = [(0, 1, 18), (2, 0, 18), (3, 2, 18), (1, 2, 18)];
        for (a, b, number) in twice.into_iter().chain(unknown).chain(others) {
            assert_eq!(add(head, &list, a, b, w).0, number, "{a},{b},{w}");
        }
    }
    for (a, b, w, number) in [
        (2, 2, 1, 5),
        (4, 4, 1, 5),
        (0, 4, 1000, 4),
        (3, 2, 1, 19),
        (2, 3, 1000, 19),
        (0, 2, 601, 19),
        (1, 0, 1000, 19),
        (0, 2, 600, 0),
        (1, 0, 999, 0),
        (1, 2, 1, 11),
        (3, 1, 1000, 11),
    ] {
        assert_eq!(add(head, &list, a, b, w).0, number, "{a},{b},{w}");
    }
}

/// 11 is for new pairs only: lists of 4,096 pairs, with records free behind them and without, and shorter lists without a free record.
#[test]
fn full_lists_take_stops() {
    let mut random = Random(51);
    for (n, m) in [(2, 1), (4, 5), (30, 99), (120, 4096), (512, 4096)] {
        let full = lists::uniform(&mut random, n, m);
        let free = if m == PAIRS { random.below(3) } else { 0 };
        let list = [full.records(), pairs(&mut random, free)].concat();
        let new = (0..n as u32).flat_map(|a| (0..a).map(move |b| (a, b))).find(|&(a, b)| ends::count(&full, a, b) == 0);
        for w in [1, 500, 1000] {
            assert_eq!(new.map_or(11, |(a, b)| add(full.head(), &list, a, b, w).0), 11);
        }
        for j in [0, m / 2, m - 1] {
            let (a, b, count) = full.pairs[j];
            for w in [1, 999 - count.min(998), 1000 - count] {
                let sum = count + w;
                let number = if w == 0 { 18 } else { 19 * u32::from(sum > 1000) };
                let (answer, head, after) = add(full.head(), &list, b as u32, a as u32, w as u32);
                assert_eq!((answer, head), (number, full.head()), "{w} more than {count}");
                let mut wanted = list.clone();
                wanted[j].w = if number == 0 { sum as u16 } else { count as u16 };
                assert!(after == wanted, "{w} more than {count} at {j}");
            }
        }
    }
}

/// Stops added in several steps, in any order and with the modules either way round, give the same records as one add of the sum for each pair, and as the
/// file that names the sums.
#[test]
fn steps_and_orders() {
    let mut random = Random(52);
    for _ in 0..400 {
        let sums = lists::small(&mut random);
        let mut steps = vec![];
        for (a, b, w) in sums.scattered(&mut random) {
            let mut left = w;
            while left > 0 {
                let part = if steps.len() > 400 { left } else { 1 + random.below(left) };
                steps.push(if random.once_in(2) { (a, b, part) } else { (b, a, part) });
                left -= part;
            }
        }
        let by_file = List::read(&files::scattered(&sums, &mut random)).unwrap();
        for _ in 0..3 {
            for i in (1..steps.len()).rev() {
                steps.swap(i, random.below(i + 1));
            }
            let (mut at_once, mut in_steps) = (List::new(sums.n as u32).unwrap(), List::new(sums.n as u32).unwrap());
            sums.pairs.iter().for_each(|&(a, b, w)| at_once.add(a as u32, b as u32, w as u32).unwrap());
            steps.iter().for_each(|&(a, b, w)| in_steps.add(a as u32, b as u32, w as u32).unwrap());
            assert_eq!((at_once.pairs(), in_steps.pairs()), (by_file.pairs(), by_file.pairs()));
        }
    }
}

/// One stop after the other up to 1,000, and not one more.
#[test]
fn one_by_one() {
    let mut list = List::new(3).unwrap();
    for count in 1..=STOPS {
        list.add(0, 2, 1).unwrap();
        list.add(2, 1, 1).unwrap();
        assert_eq!(list.pairs(), [Pair { a: 0, b: 2, w: count }, Pair { a: 1, b: 2, w: count }]);
    }
    assert_eq!([list.add(2, 0, 1), list.add(1, 2, 1)].map(|answer| answer.unwrap_err().number()), [19; 2]);
    list.add(0, 1, 1).unwrap();
    assert_eq!(list.pairs().iter().map(|pair| pair.w).collect::<Vec<_>>(), [1, 1000, 1000]);
}

/// Remove takes the pair with its whole count, later records keep theirs, the one freed is 0,0,0, and the pair can be added with any count again.
#[test]
fn removed_whole() {
    let mut random = Random(53);
    for _ in 0..4_000 {
        let drawn = lists::any(&mut random);
        let (n, m) = (drawn.n, drawn.pairs.len());
        if m == 0 {
            continue;
        }
        let past = pairs(&mut random, n % 3);
        let mut list = [drawn.records(), past.clone()].concat();
        let j = random.below(m);
        let Pair { a, b, .. } = list[j];
        let mut left = drawn.records();
        left.remove(j);
        let head = Head { n: n as u32, m: m as u32 - 1 };
        assert_eq!(ffi::remove(drawn.head(), &mut list, b as u32, a as u32), Changed { number: 0, head });
        assert_eq!(list, [&left[..], &[Pair { a: 0, b: 0, w: 0 }], &past].concat());
        assert_eq!(ffi::remove(head, &mut list, a as u32, b as u32).number, 14);
        let w = 1 + random.below(1000) as u16;
        left.insert(j, Pair { a, b, w });
        assert_eq!(ffi::add(head, &mut list, a as u32, b as u32, w as u32), Changed { number: 0, head: drawn.head() });
        assert_eq!(list, [left, past].concat());
    }
}

/// The numbers of all calls that are lent a list, with enough of every buffer; a pair of modules that are not held.
fn numbers(head: Head, list: &[Pair], a: u32, b: u32) -> [u32; 10] {
    let (n, mut own, mut lent) = (head.n as usize, head, list.to_vec());
    let (members, mut work, mut text) = (vec![1; n], vec![7; WORK], vec![0; 65536]);
    let (mut order, mut cores, mut shares, mut found) = (vec![0; n], vec![0; n], vec![0; list.len()], vec![0; n]);
    [
        ffi::place(head, list, a, b).number,
        ffi::add(head, &mut lent, a, b, 1).number,
        ffi::add_to(&mut own, &mut list.to_vec(), a, b, 1),
        ffi::remove(head, &mut list.to_vec(), a, b).number,
        ffi::write_dimacs(head, list, &mut text).number,
        ffi::peel(head, list, &mut order, &mut cores, &mut work),
        ffi::solve(head, list, &mut found, &mut cores, &mut shares, &mut work).number,
        ffi::check(head, list, &found, &shares, &mut work).number,
        ffi::surplus(head, list, &members, &members).number,
        ffi::kit(head, list, 1, &mut found, &mut work).number,
    ]
}

/// 13 for a held record with a count outside 1 to 1,000, in every call, be it the first, the last or any; not for one past the held ones.
#[test]
fn counts_that_disagree() {
    let (mut random, mut without_pairs) = (Random(54), 0);
    for _ in 0..300 {
        let drawn = lists::small(&mut random);
        let (n, m) = (drawn.n, drawn.pairs.len());
        // what solve, check and kit give where head and list agree
        let group = plain::solve(drawn.head(), &drawn.records(), [n, n, m, WORK]);
        let all = (0..n as u32).flat_map(|a| (0..a).map(move |b| (a, b)));
        let Some((a, b)) = all.into_iter().find(|&(a, b)| ends::count(&drawn, a, b) == 0) else { continue };
        for w in [0, 1001, 1002, 2024, 0x7fff, 0x8000, 0x83e8, 0xffff] {
            for j in 0..m {
                let mut list = [drawn.records(), pairs(&mut random, 1)].concat();
                list[j].w = w;
                assert_eq!(numbers(drawn.head(), &list, a, b), [13; 10], "{w} at {j} of {m}");
            }
            let past = [Pair { w, ..Pair::default() }, Pair { a: 0, b: 1, w }];
            let list = in_front(&drawn.records(), &[drawn.records(), past.to_vec()].concat());
            assert_eq!(numbers(drawn.head(), &list, a, b), [0, 0, 0, 14, 0, 0, group, group, 0, group], "{w} past {m}");
        }
        without_pairs += u32::from(m == 0);
    }
    assert!(without_pairs >= 10, "{without_pairs} lists without pairs");
}
