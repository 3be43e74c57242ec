//! Each call over lent buffers but the readers (files.rs, dimacs.rs), place and kit (place.rs, kits.rs), on generated lists, valid and damaged, with
//! counts of all sorts, against the plain computation: the number, every value beside it, and every entry of every buffer, those past the ones named too.
//! Each test also asserts that it met every number of its call; 15 is proved never to come.
mod plain;

use kandurzo::ffi::{self, Changed, Difference, Placed, Solved, Verdict, Written};
use kandurzo::{Head, Pair};
use plain::buffers::{bytes, halves, in_front, pairs, words, work, work_after, Met, WORK};
use plain::{ends, lists, Plain, Random};
use std::collections::BTreeMap;
use std::mem::{align_of, offset_of, size_of};

#[test]
fn layout() {
    let sizes = [
        (size_of::<Pair>(), align_of::<Pair>()),
        (size_of::<Head>(), align_of::<Head>()),
        (size_of::<Changed>(), align_of::<Changed>()),
        (size_of::<Placed>(), align_of::<Placed>()),
        (size_of::<Written>(), align_of::<Written>()),
        (size_of::<Solved>(), align_of::<Solved>()),
        (size_of::<Verdict>(), align_of::<Verdict>()),
        (size_of::<Difference>(), align_of::<Difference>()),
    ];
    assert_eq!(sizes, [(6, 2), (8, 4), (12, 4), (12, 4), (8, 4), (32, 8), (12, 4), (16, 8)]);
    assert_eq!((offset_of!(Pair, a), offset_of!(Pair, b), offset_of!(Pair, w)), (0, 2, 4));
    assert_eq!((offset_of!(Head, n), offset_of!(Head, m)), (0, 4));
    assert_eq!((offset_of!(Changed, number), offset_of!(Changed, head)), (0, 4));
    assert_eq!((offset_of!(Placed, number), offset_of!(Placed, held), offset_of!(Placed, at)), (0, 4, 8));
    assert_eq!((offset_of!(Written, number), offset_of!(Written, length)), (0, 4));
    assert_eq!((offset_of!(Solved, p), offset_of!(Solved, q), offset_of!(Solved, k)), (4, 8, 12));
    assert_eq!((offset_of!(Solved, coresize), offset_of!(Solved, ratio)), (16, 24));
    assert_eq!((offset_of!(Verdict, p), offset_of!(Verdict, q), offset_of!(Difference, value)), (4, 8, 8));
}

#[test]
fn start() {
    let mut met = Met::default();
    for n in (0..2000).chain([65536, 65537, u32::MAX]) {
        let number = if (1..=512).contains(&n) { 0 } else { 2 };
        let head = if number == 0 { Head { n, m: 0 } } else { Head::default() };
        assert_eq!(ffi::start(n), Changed { number, head });
        met.see(number);
    }
    met.are(&[0, 2]);
}

/// What add of w stops (or remove, without any) answers and leaves, by a table of pairs.
fn edited(head: Head, list: &[Pair], a: u32, b: u32, w: Option<u32>) -> (u32, Head, Vec<Pair>) {
    let refused = |number| (number, head, list.to_vec());
    let first = ends::number(head, list, a, b);
    if first != 0 {
        return refused(first);
    }
    let m = head.m as usize;
    let mut held: BTreeMap<(u16, u16), u32> = list[..m].iter().map(|pair| (pair.ends(), pair.w as u32)).collect();
    let ends = ends::ends(a, b);
    match (w, held.get(&ends)) {
        (Some(w), _) if !(1..=1000).contains(&w) => return refused(18),
        (Some(w), Some(&count)) if count + w > 1000 => return refused(19),
        (Some(_), None) if m == 4096 || m == list.len() => return refused(11),
        (None, None) => return refused(14),
        (Some(w), _) => *held.entry(ends).or_insert(0) += w,
        (None, Some(_)) => drop(held.remove(&ends)),
    }
    let mut front: Vec<Pair> = held.into_iter().map(|((a, b), w)| Pair { a, b, w: w as u16 }).collect();
    let new = Head { n: head.n, m: front.len() as u32 };
    front.resize(m.max(front.len()), Pair::default());
    (0, new, in_front(&front, list))
}

/// Add, or remove, by value and on the caller's own head.
fn edits(adds: bool, seed: u64) -> Met {
    let (mut random, mut met, mut unknown_twice) = (Random(seed), Met::default(), 0);
    for _ in 0..20_000 {
        let list = lists::any_or_full(&mut random);
        let (head, mut records) = lists::lent(&mut random, &list);
        let (a, b) = ends::two(&mut random, &list);
        let w = adds.then(|| ends::stops(&mut random, ends::count(&list, a, b)));
        let (number, new, after) = edited(head, &records, a, b, w);
        let (mut own, mut lent) = (head, records.clone());
        let (by_value, on_own) = match w {
            Some(w) => (ffi::add(head, &mut records, a, b, w), ffi::add_to(&mut own, &mut lent, a, b, w)),
            None => (ffi::remove(head, &mut records, a, b), ffi::remove_from(&mut own, &mut lent, a, b)),
        };
        assert_eq!(by_value, Changed { number, head: new }, "{a},{b},{w:?} of {head:?}");
        assert_eq!((on_own, own), (number, new), "{a},{b},{w:?} of {head:?}");
        assert!(records == after && lent == after, "the list after {number} of {a},{b},{w:?}");
        met.see(number);
        unknown_twice += u32::from(number == 5 && a >= head.n);
    }
    assert!(unknown_twice >= 20, "a module of number N or more with itself, {unknown_twice} times");
    met
}

#[test]
fn add_and_add_to() {
    edits(true, 1).are_each(100, &[0, 4, 5, 11, 13, 18, 19]);
}

#[test]
fn remove_and_remove_from() {
    edits(false, 2).are_each(100, &[0, 4, 5, 13, 14]);
}

#[test]
fn peel() {
    let (mut random, mut met) = (Random(4), Met::default());
    for _ in 0..6_000 {
        let drawn = lists::any(&mut random);
        let (head, list) = lists::lent(&mut random, &drawn);
        let (x, y) = (random.length(drawn.n), random.length(drawn.n));
        let (mut order, mut cores, mut work) = (halves(&mut random, x), words(&mut random, y), work(&mut random));
        let short = x < head.n as usize || y < head.n as usize || work.len() < WORK;
        let number = if !plain::agree(head, &list) { 13 } else { 12 * short as u32 };
        let cleared = work_after(number, &work);
        let (leaving, numbers) = if number == 0 {
            let held = Plain::of(head, &list);
            if held.n <= 12 {
                assert_eq!(held.by_subsets().1, held.cores());
            }
            (in_front(&held.leaving(), &order), in_front(&held.cores(), &cores))
        } else {
            (order.clone(), cores.clone())
        };
        assert_eq!(ffi::peel(head, &list, &mut order, &mut cores, &mut work), number);
        assert_eq!((order, cores), (leaving, numbers));
        assert!(work == cleared, "the work buffer after {number}");
        met.see(number);
    }
    met.are(&[0, 12, 13]);
}

/// What document 01 says of solve's answer for a list with a pair, shares of pairs inside the core of order K being free.
fn is_answer(list: &Plain, solved: Solved, members: &[u8], cores: &[u32], shares: &[u32]) {
    let (p, q) = (solved.p as usize, solved.q as usize);
    assert_eq!(members, list.largest_by_split(shares, p, q), "the largest group of that ratio");
    assert_eq!((p, q), (list.inside(members), members.iter().filter(|&&x| x == 1).count()));
    if list.n <= 12 {
        assert_eq!((members.to_vec(), cores.to_vec()), list.by_subsets());
    }
    assert_eq!(cores, list.cores());
    let k = p.div_ceil(q);
    let core_size = cores.iter().filter(|&&c| c as usize >= k).count();
    assert_eq!((solved.k as usize, solved.coresize as usize), (k, core_size));
    assert_eq!(solved.ratio.to_bits(), (p as f64 / q as f64).to_bits());
    let mut place = vec![0; list.n];
    list.leaving().iter().enumerate().for_each(|(i, &v)| place[v as usize] = i);
    for (&(a, b, w), &share) in list.pairs.iter().zip(shares) {
        if (cores[a] as usize) < k || (cores[b] as usize) < k {
            assert_eq!(share as usize, if place[a] < place[b] { w * q } else { 0 }, "pair {a},{b},{w}");
        }
    }
}

/// What solve answers where it refuses by this number: all else is 0, and the ratio is not -0.0, which would be equal to 0.0.
fn is_refusal(solved: Solved, number: u32) {
    assert_eq!(solved, Solved { number, p: 0, q: 0, k: 0, coresize: 0, ratio: 0.0 });
    assert_eq!(solved.ratio.to_bits(), 0);
}

#[test]
fn solve() {
    let (mut random, mut met) = (Random(5), Met::default());
    for _ in 0..8_000 {
        let drawn = lists::any(&mut random);
        let (head, list) = lists::lent(&mut random, &drawn);
        let (n, m) = (head.n as usize, head.m as usize);
        let (x, y, z) = (random.length(drawn.n), random.length(drawn.n), random.length(drawn.pairs.len()));
        let (mut members, mut cores, mut shares) =
            (bytes(&mut random, x), words(&mut random, y), words(&mut random, z));
        let mut work = work(&mut random);
        let number = plain::solve(head, &list, [x, y, z, work.len()]);
        let before = (members.clone(), cores.clone(), shares.clone());
        let cleared = work_after(number, &work);
        let solved = ffi::solve(head, &list, &mut members, &mut cores, &mut shares, &mut work);
        assert!(work == cleared, "the work buffer after {number}");
        met.see(solved.number);
        if number != 0 {
            is_refusal(solved, number);
            assert_eq!((members, cores, shares), before);
            continue;
        }
        assert_eq!(solved.number, 0);
        assert!(
            members[n..] == before.0[n..] && cores[n..] == before.1[n..] && shares[m..] == before.2[m..],
            "entries past those named"
        );
        is_answer(&Plain::of(head, &list), solved, &members[..n], &cores[..n], &shares[..m]);
        // the answer follows from the list alone, whatever the buffers held before
        let (mut again, mut twice, mut thrice) = (vec![0; n], vec![0; n], vec![0; m]);
        assert_eq!(ffi::solve(head, &list, &mut again, &mut twice, &mut thrice, &mut [0; WORK]), solved);
        assert_eq!((&again[..], &twice[..], &thrice[..]), (&members[..n], &cores[..n], &shares[..m]));
    }
    met.are_each(100, &[0, 12, 13, 20]);
}

/// Member bytes: a random set, now and then with something wrong; bytes past N are anything.
fn set(random: &mut Random, n: usize, length: usize) -> Vec<u8> {
    let mut set = bytes(random, length);
    let one_in = 1 + random.below(3);
    set.iter_mut().take(n).for_each(|x| *x = random.once_in(one_in) as u8);
    match random.below(20) {
        0 => set.iter_mut().take(n).for_each(|x| *x = 0),
        1 if length > 0 => set[random.below(length)] = 2 + random.next() as u8 % 254,
        _ => {}
    }
    set
}

/// A share for each pair: anything, or up to what all its units are, W times Q, or one more, or up to Q.
fn any_shares(random: &mut Random, list: &Plain, q: usize, length: usize) -> Vec<u32> {
    let (mut shares, kind) = (words(random, length), random.below(4));
    for (share, &(.., w)) in shares.iter_mut().zip(&list.pairs) {
        let over = usize::from(random.once_in(20));
        match kind {
            0 => *share = random.below(w * q + 1 + over) as u32,
            1 => *share = random.below(q + 1) as u32,
            2 => *share = if random.once_in(2) { (w * q) as u32 } else { 0 },
            _ => {}
        }
    }
    shares
}

/// One entry of a sheet altered, or none: a share up to one unit more than the pair has, a share one more or less, a member.
fn altered(random: &mut Random, list: &Plain, q: usize, members: &mut [u8], shares: &mut [u32]) {
    let m = list.pairs.len().min(shares.len());
    let j = random.below(m.max(1));
    match random.below(7) {
        0 if m > 0 => shares[j] = random.below(list.pairs[j].2 * q + 2) as u32,
        1 if m > 0 => shares[j] = (list.pairs[j].2 * q) as u32 + 1,
        2 if m > 0 => shares[j] = shares[j].wrapping_sub(1),
        3 if m > 0 => shares[j] = shares[j].wrapping_add([1, 0x1_0000][random.below(2)]),
        4 if !members.is_empty() => members[random.below(list.n.min(members.len()))] ^= 1,
        _ => {}
    }
}

#[test]
fn check() {
    let (mut random, mut met, mut seven_hidden) = (Random(6), Met::default(), 0);
    for _ in 0..12_000 {
        let drawn = lists::any(&mut random);
        let (head, list) = lists::lent(&mut random, &drawn);
        let (n, m) = (drawn.n, drawn.pairs.len());
        let (x, z) = (random.length(n), random.length(m));
        let mut members = set(&mut random, n, x);
        let size = members.iter().take(n).filter(|&&x| x == 1).count();
        let mut shares = any_shares(&mut random, &drawn, size, z);
        // mostly solve's own answer, as it is or with one entry altered; else, and where the list has no pair, any set and any shares
        if m > 0 && !random.once_in(3) {
            let (mut found, mut sheet) = (vec![0; n], vec![0; m]);
            let q =
                ffi::solve(drawn.head(), &drawn.records(), &mut found, &mut vec![0; n], &mut sheet, &mut [0; WORK]).q;
            members.iter_mut().zip(&found).for_each(|(x, &y)| *x = y);
            shares.iter_mut().zip(&sheet).for_each(|(x, &y)| *x = y);
            altered(&mut random, &drawn, q as usize, &mut members, &mut shares);
        }
        let mut work = work(&mut random);
        let (number, p, q) = plain::check(head, &list, &members, &shares, work.len());
        seven_hidden += u32::from(number == 20 && !plain::is_group(n, &members));
        let cleared = work_after(number, &work);
        assert_eq!(ffi::check(head, &list, &members, &shares, &mut work), Verdict { number, p, q });
        assert!(work == cleared, "the work buffer after {number}");
        met.see(number);
    }
    met.are_each(100, &[0, 7, 8, 9, 12, 13, 20]);
    assert!(seven_hidden >= 20, "20 before 7, {seven_hidden} times");
}

#[test]
fn surplus() {
    let (mut random, mut met) = (Random(7), Met::default());
    for _ in 0..20_000 {
        let drawn = lists::any(&mut random);
        let (head, list) = lists::lent(&mut random, &drawn);
        let (x, y) = (random.length(drawn.n), random.length(drawn.n));
        let (first, second) = (set(&mut random, drawn.n, x), set(&mut random, drawn.n, y));
        let (number, value) = plain::surplus(head, &list, &first, &second);
        assert_eq!(ffi::surplus(head, &list, &first, &second), Difference { number, value });
        met.see(number);
    }
    met.are(&[0, 7, 12, 13]);
}

/// Solve, check and kit with so many member bytes and core numbers, shares and words of work, all of anything: this number and nothing beside it from each.
fn turned_down(random: &mut Random, head: Head, list: &[Pair], [x, z, words_of_work]: [usize; 3], number: u32) {
    let (mut members, mut cores, mut shares) = (bytes(random, x), words(random, x), words(random, z));
    let (before, work) = ((members.clone(), cores.clone(), shares.clone()), words(random, words_of_work));
    let (mut after, cleared) = (work.clone(), work_after(number, &work));
    is_refusal(ffi::solve(head, list, &mut members, &mut cores, &mut shares, &mut after), number);
    assert_eq!((&members, &cores, &shares), (&before.0, &before.1, &before.2));
    assert!(after == cleared, "the work buffer after {number} of solve");
    for group in [vec![1; x], vec![0; x], vec![2; x], members.clone()] {
        after = work.clone();
        assert_eq!(ffi::check(head, list, &group, &shares, &mut after), Verdict { number, p: 0, q: 0 });
        assert!(after == cleared, "the work buffer after {number} of check");
    }
    for k in [0, 1, head.n, head.n + 1, u32::MAX] {
        after = work.clone();
        assert_eq!(ffi::kit(head, list, k, &mut members, &mut after), Verdict { number, p: 0, q: 0 }, "k = {k}");
        assert!(members == before.0 && after == cleared, "the buffers after {number} of kit");
    }
}

/// 13, 12 and 20, whatever the records past M = 0, the group, the shares and k are.
#[test]
fn lists_without_pairs() {
    let mut random = Random(8);
    for n in [1, 2, 3, 12, 512] {
        let own = lists::uniform(&mut random, n, 20).records();
        for list in [vec![], own, pairs(&mut random, 9), vec![Pair::default(); 4096]] {
            let head = Head { n: n as u32, m: 0 };
            for lengths in [[n, 0, WORK], [n, 9, WORK], [n + 1, 1, WORK + 1]] {
                turned_down(&mut random, head, &list, lengths, 20);
            }
            for lengths in [[n - 1, 0, WORK], [n, 0, WORK - 1], [0, 0, 0]] {
                turned_down(&mut random, head, &list, lengths, 12);
            }
            for n in [0, 513] {
                turned_down(&mut random, Head { n, m: 0 }, &list, [n as usize, 0, WORK], 13);
            }
        }
    }
}
