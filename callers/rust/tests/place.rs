//! Place (document 02, item 3): whether a pair is held, and its place or the one where it would go, whatever the stop counts, against a count of the smaller
//! pairs; and add and remove at that place.
mod plain;

use kandurzo::ffi::{self, Changed, Placed};
use kandurzo::{Head, List, Pair, Place, PAIRS};
use plain::buffers::{pairs, Met};
use plain::{ends, lists, Random};

/// What place answers: whether one of the held records is the pair, and how many of them are smaller.
fn placed(head: Head, list: &[Pair], a: u32, b: u32) -> Placed {
    let number = ends::number(head, list, a, b);
    if number != 0 {
        return Placed { number, held: 0, at: 0 };
    }
    let (held, pair) = (list[..head.m as usize].iter().map(|record| record.ends()), ends::ends(a, b));
    Placed { number, held: held.clone().any(|x| x == pair) as u32, at: held.filter(|&x| x < pair).count() as u32 }
}

/// The library's answer, the same for the modules in either order; after each call the list is as before.
fn place(head: Head, list: &[Pair], a: u32, b: u32) -> Placed {
    let before = list.to_vec();
    let [answer, turned] = [(a, b), (b, a)].map(|(a, b)| {
        let answer = ffi::place(head, list, a, b);
        assert!(list == before, "the list after {a},{b}");
        answer
    });
    assert_eq!(turned, answer, "{b},{a} in the place of {a},{b}");
    answer
}

/// All pairs of n modules, rising, with counts from 1 to 1,000 that rise and fall.
fn all(n: u16) -> Vec<Pair> {
    (0..n).flat_map(|a| (a + 1..n).map(move |b| Pair { a, b, w: 1 + (999 + 371 * a + 113 * b) % 1000 })).collect()
}

/// Records with the counts 1, 2, and so on.
fn records<const M: usize>(pairs: [(u16, u16); M]) -> Vec<Pair> {
    pairs.into_iter().zip(1..).map(|((a, b), w)| Pair { a, b, w }).collect()
}

#[test]
fn by_hand() {
    let mut list = List::read(b"modules=5\npairs=4\n0,2,1\n1,2,1000\n1,4,7\n2,3,1\n").unwrap();
    let held = |at| Ok(Place { held: true, at });
    let free = |at| Ok(Place { held: false, at });
    assert_eq!([(0, 2), (1, 2), (1, 4), (2, 3)].map(|(a, b)| list.place(a, b)), [held(0), held(1), held(2), held(3)]);
    assert_eq!([(2, 0), (2, 1), (4, 1), (3, 2)].map(|(a, b)| list.place(a, b)), [held(0), held(1), held(2), held(3)]);
    assert_eq!([(0, 1), (0, 3), (0, 4)].map(|(a, b)| list.place(a, b)), [free(0), free(1), free(1)]);
    assert_eq!([(3, 1), (4, 2), (4, 3)].map(|(a, b)| list.place(a, b)), [free(2), free(4), free(4)]);
    list.add(3, 4, 5).unwrap();
    assert_eq!([(2, 4), (3, 4)].map(|(a, b)| list.place(a, b)), [free(4), held(4)]);
    list.remove(0, 2).unwrap();
    assert_eq!([(0, 2), (1, 2), (3, 4)].map(|(a, b)| list.place(a, b)), [free(0), held(0), held(3)]);
    let refused = |a, b| list.place(a, b).unwrap_err().to_string();
    assert_eq!(refused(0, 5), "4: a module number is N or more");
    assert_eq!([refused(0, 0), refused(5, 5)], ["5: a module is paired with itself"; 2]);
}

#[test]
fn generated_lists() {
    let (mut random, mut met) = (Random(31), Met::default());
    let (mut held, mut between, mut last, mut unknown_twice) = (0, 0, 0, 0);
    for _ in 0..20_000 {
        let drawn = lists::any_or_full(&mut random);
        let (head, list) = lists::lent(&mut random, &drawn);
        let (a, b) = ends::two(&mut random, &drawn);
        let wanted = placed(head, &list, a, b);
        assert_eq!(place(head, &list, a, b), wanted, "{a},{b} of {head:?}");
        met.see(wanted.number);
        let free = wanted.number == 0 && wanted.held == 0;
        held += wanted.held;
        between += u32::from(free && 0 < wanted.at && wanted.at < head.m);
        last += u32::from(free && 0 < wanted.at && wanted.at == head.m);
        unknown_twice += u32::from(wanted.number == 5 && a >= head.n);
    }
    met.are_each(100, &[0, 4, 5, 13]);
    assert!(
        held >= 1_000 && between >= 1_000 && last >= 100 && unknown_twice >= 20,
        "{held} {between} {last} {unknown_twice}"
    );
}

/// Every list of up to five modules, with every two numbers up to N: all records before the place are smaller, and none from there on is.
#[test]
fn every_small_list() {
    for n in 1..=5 {
        let all = all(n);
        for chosen in 0..1u32 << all.len() {
            let list: Vec<Pair> = (0..all.len()).filter(|j| chosen >> j & 1 == 1).map(|j| all[j]).collect();
            let head = Head { n: n as u32, m: list.len() as u32 };
            for (a, b) in (0..=head.n).flat_map(|a| (0..=head.n).map(move |b| (a, b))) {
                let answer = place(head, &list, a, b);
                if a == b || a == head.n || b == head.n {
                    assert_eq!(answer, Placed { number: if a == b { 5 } else { 4 }, held: 0, at: 0 });
                    continue;
                }
                let pair = ends::ends(a, b);
                let (before, from_there) = list.split_at(answer.at as usize);
                assert!(
                    before.iter().all(|x| x.ends() < pair) && !from_there.iter().any(|x| x.ends() < pair),
                    "{a},{b} of {list:?}"
                );
                let held = list.iter().any(|x| x.ends() == pair) as u32;
                assert_eq!((answer.number, answer.held), (0, held), "{a},{b} of {list:?}");
            }
        }
    }
}

/// A sound list of four modules, and heads and lists that disagree, each in one way.
fn sound_and_others() -> (Vec<Pair>, Vec<(Head, Vec<Pair>)>) {
    let sound = records([(0, 1), (0, 2), (1, 2), (1, 3), (2, 3)]);
    let heads = [(0, 0), (3, 5), (513, 5), (u32::MAX, 5), (4, 6), (4, u32::MAX)];
    let mut others: Vec<_> = heads.into_iter().map(|(n, m)| (Head { n, m }, sound.clone())).collect();
    others.push((Head { n: 512, m: 4097 }, all(512)[..4097].to_vec()));
    // a module twice, at the start and at the end; larger first; a module of number N; a pair twice, with a higher count; not rising, at the start and at
    // the end
    for (j, a, b) in [(0, 0, 0), (4, 3, 3), (4, 3, 2), (4, 2, 4), (2, 0, 2), (0, 0, 3), (4, 0, 3)] {
        let mut list = sound.clone();
        (list[j].a, list[j].b) = (a, b);
        others.push((Head { n: 4, m: 5 }, list));
    }
    // a count outside 1 to 1,000
    for (j, w) in [(0, 0), (2, 0), (4, 0), (0, 1001), (2, 1001), (4, 1001), (1, 0x8001), (4, u16::MAX)] {
        let mut list = sound.clone();
        list[j].w = w;
        others.push((Head { n: 4, m: 5 }, list));
    }
    (sound, others)
}

/// 13, 5 and 4, alone and together: the first in this order is given, and nothing beside it.
#[test]
fn refusals_in_order() {
    const FAR: u32 = u32::MAX;
    let (sound, others) = sound_and_others();
    let refused = |number| Placed { number, held: 0, at: 0 };
    let head = Head { n: 4, m: 5 };
    assert_eq!(place(head, &sound, 1, 3), Placed { number: 0, held: 1, at: 3 });
    assert_eq!(place(head, &sound, 0, 3), Placed { number: 0, held: 0, at: 2 });
    for (a, b) in [(1, 4), (3, 4), (4, 5), (2, FAR), (FAR - 1, FAR)] {
        assert_eq!(place(head, &sound, a, b), refused(4), "{a},{b}");
    }
    // numbers whose lower 16 bits are those of a held pair, or of one module
    for (a, b) in [(0x1_0001, 3), (1, 0x1_0003), (0x1_0001, 0x1_0003), (2, 0x1_0002)] {
        assert_eq!(place(head, &sound, a, b), refused(4), "{a},{b}");
    }
    for a in [0, 2, 3, 4, 5, 0x1_0002, FAR] {
        assert_eq!(place(head, &sound, a, a), refused(5), "{a},{a}");
    }
    // a list that is one record short, with the record that it lacks behind it in memory
    assert_eq!(place(head, &sound[..4], 1, 3), refused(13));
    // a count outside 1 to 1,000 past the held records is nobody's
    for w in [0, 1001, u16::MAX] {
        let longer = [&sound[..], &[Pair { a: 2, b: 3, w }]].concat();
        assert_eq!(place(head, &longer, 1, 3), Placed { number: 0, held: 1, at: 3 });
    }
    for (head, list) in others {
        // with N above 3: no other cause, 5, 4, and both
        for (a, b) in [(1, 3), (0, 3), (2, 2), (2, FAR), (FAR, FAR)] {
            assert_eq!(place(head, &list, a, b), refused(13), "{a},{b} of {head:?}, {:?}", &list[..5]);
        }
    }
}

/// Where the pair is held, add raises the count at its place, and remove takes the record there; where it is not, add puts it there, unless no record is
/// free.
#[test]
fn add_and_remove_there() {
    let (mut random, mut added, mut raised, mut removed, mut full) = (Random(32), 0, 0, 0, 0);
    for _ in 0..20_000 {
        let drawn = lists::any(&mut random);
        let (head, mut list) = lists::lent(&mut random, &drawn);
        let (a, b) = ends::two(&mut random, &drawn);
        let first = place(head, &list, a, b);
        let (m, at, before, w) = (head.m as usize, first.at as usize, list.clone(), 1 + random.below(500) as u32);
        let (changed, after) = if first.number != 0 {
            assert_eq!(ffi::add(head, &mut list, a, b, w).number, first.number);
            assert_eq!(ffi::remove(head, &mut list, a, b).number, first.number);
            continue;
        } else if first.held == 1 && random.once_in(2) {
            let count = before[at].w as u32 + w;
            raised += 1;
            let new = if count > 1000 { before[at] } else { ends::pair(a, b, count) };
            let answer = ffi::add(head, &mut list, a, b, w);
            assert_eq!(answer, Changed { number: if count > 1000 { 19 } else { 0 }, head });
            assert!(list == [&before[..at], &[new], &before[at + 1..]].concat(), "{a},{b},{w}");
            continue;
        } else if first.held == 1 {
            assert_eq!(before[at].ends(), ends::ends(a, b));
            removed += 1;
            let freed = &[Pair::default()];
            (ffi::remove(head, &mut list, a, b), [&before[..at], &before[at + 1..m], freed, &before[m..]].concat())
        } else if m == list.len() || m == 4096 {
            assert_eq!(ffi::add(head, &mut list, a, b, w).number, 11);
            full += 1;
            continue;
        } else {
            added += 1;
            let new = &[ends::pair(a, b, w)];
            (ffi::add(head, &mut list, a, b, w), [&before[..at], new, &before[at..m], &before[m + 1..]].concat())
        };
        assert_eq!((changed.number, list.as_slice()), (0, after.as_slice()), "{a},{b},{w}");
        assert_eq!(place(changed.head, &list, a, b), Placed { number: 0, held: 1 - first.held, at: first.at });
    }
    assert!(added >= 1_000 && raised >= 1_000 && removed >= 1_000 && full >= 100, "{added} {raised} {removed} {full}");
}

/// A list changed by add and remove, and beside it records that are put in and taken out at the places answered.
#[test]
fn a_list_kept_by_its_places() {
    for (seed, n) in [(33, 2), (34, 7), (35, 60), (36, 512)] {
        let mut random = Random(seed);
        let (mut list, mut kept, mut full) = (List::new(n as u32).unwrap(), Vec::<Pair>::new(), 0);
        for _ in 0..12_000 {
            let (a, b) = (random.below(n) as u32, random.below(n) as u32);
            if a == b {
                continue;
            }
            let Place { held, at } = list.place(a, b).unwrap();
            let w = 1 + random.below(400) as u16;
            if held && random.once_in(3) {
                list.remove(b, a).unwrap();
                assert_eq!(kept.remove(at).ends(), ends::ends(a, b));
            } else if held {
                let raised = kept[at].w + w;
                assert_eq!(list.add(b, a, w as u32).is_ok(), raised <= 1000);
                kept[at].w = if raised <= 1000 { raised } else { kept[at].w };
            } else if kept.len() < PAIRS {
                list.add(a, b, w as u32).unwrap();
                kept.insert(at, ends::pair(a, b, w as u32));
            } else {
                assert_eq!(list.add(a, b, w as u32).unwrap_err().number(), 11);
                full += 1;
            }
            assert!(list.pairs() == kept, "after {a},{b} of {n} modules");
        }
        assert!(n < 512 || full > 1_000, "{full} times full");
    }
}

/// Lists of 4,096 pairs: those drawn, the first and the last of 512 modules, and nearly all of 92. The pairs of their modules are gone through in rising
/// order, and each held one and every fifth of the others has as its place the number of held ones met before.
#[test]
fn full_lists() {
    let mut random = Random(37);
    let drawn = lists::uniform(&mut random, 512, PAIRS).records();
    let (many, few) = (all(512), all(92));
    let lists = [
        (512, drawn),
        (512, many[..PAIRS].to_vec()),
        (512, many[many.len() - PAIRS..].to_vec()),
        (92, few[60..60 + PAIRS].to_vec()),
    ];
    for (n, held) in lists {
        let head = Head { n, m: PAIRS as u32 };
        let longer = [held.clone(), pairs(&mut random, 3)].concat();
        let mut at = 0;
        for (j, pair) in all(n as u16).into_iter().enumerate() {
            let here = held.get(at).is_some_and(|record| record.ends() == pair.ends());
            let list = if j % 2 == 0 { &held } else { &longer };
            let wanted = Placed { number: 0, held: here as u32, at: at as u32 };
            if here || j % 5 == 0 {
                assert_eq!(place(head, list, pair.a as u32, pair.b as u32), wanted, "{pair:?} of {n} modules");
            }
            at += here as usize;
        }
        assert_eq!(at, PAIRS);
    }
}

/// A list without pairs, also one of no records: every pair would be the first, whatever the records are.
#[test]
fn empty_lists() {
    let none = |n| Head { n, m: 0 };
    for list in [vec![], records([(0, 1), (0, 2), (1, 2)]), records([(0, 0); 9]), records([(u16::MAX, u16::MAX)])] {
        assert_eq!(place(none(1), &list, 0, 0), Placed { number: 5, held: 0, at: 0 });
        assert_eq!(place(none(1), &list, 0, 1), Placed { number: 4, held: 0, at: 0 });
        for n in [2, 3, 40, 512] {
            for Pair { a, b, .. } in all(n) {
                assert_eq!(place(none(n as u32), &list, a as u32, b as u32), Placed { number: 0, held: 0, at: 0 });
            }
        }
    }
}

/// Each record of a list, with each M: those past M count for nothing, be they the list's own, the pair itself, or below or above every pair.
#[test]
fn records_past_those_held() {
    let drawn = lists::uniform(&mut Random(38), 12, 40).records();
    for (j, &pair) in drawn.iter().enumerate() {
        for m in 0..=drawn.len() {
            let wanted = Placed { number: 0, held: (j < m) as u32, at: j.min(m) as u32 };
            let (held, own) = drawn.split_at(m);
            for past in [own.to_vec(), vec![pair; 50 - m], records([(0, 0); 9]), records([(u16::MAX, u16::MAX); 9])] {
                let head = Head { n: 12, m: m as u32 };
                assert_eq!(place(head, &[held, &past].concat(), pair.a as u32, pair.b as u32), wanted, "{j} of {m}");
            }
        }
    }
}
