//! Kits (document 02, item 7): each answer and every entry of the lent buffers against the plain computation, at every k on small lists and at some k on
//! large ones; the promised factors against every subset; and what is refused.
mod plain;

use kandurzo::ffi::{self, Verdict};
use kandurzo::{Head, List, Pair, Refusal};
use plain::buffers::{bytes, in_front, words, work_after, Met, WORK};
use plain::{files, lists, Plain, Random};

/// The call with so many member bytes and words of work, all of anything: answer and buffers must be as the plain computation says.
fn kit(random: &mut Random, head: Head, list: &[Pair], k: u32, lengths: [usize; 2]) -> Verdict {
    let (before, work) = (bytes(random, lengths[0]), words(random, lengths[1]));
    let (mut members, mut after, records) = (before.clone(), work.clone(), list.to_vec());
    let number = plain::kit(head, list, k, lengths);
    let (kit, p, q) = if number == 0 { Plain::of(head, list).kit(k as usize) } else { (vec![], 0, 0) };
    let answer = ffi::kit(head, list, k, &mut members, &mut after);
    assert_eq!(answer, Verdict { number, p: p as u32, q: q as u32 }, "k = {k} of {head:?}");
    assert_eq!(members, in_front(&kit, &before), "the members after {number} at k = {k} of {head:?}");
    assert!(after == work_after(number, &work), "the work buffer after {number} at k = {k} of {head:?}");
    assert!(list == records, "the list after {number} at k = {k} of {head:?}");
    answer
}

/// The kit of a sound list, into a few entries more than are wanted.
fn made(random: &mut Random, list: &Plain, k: u32) -> Verdict {
    let more = [random.below(3), random.below(3)];
    kit(random, list.head(), &list.records(), k, [list.n + more[0], WORK + more[1]])
}

fn number<T>(answer: Result<T, Refusal>) -> u32 {
    answer.map_or_else(Refusal::number, |_| 0)
}

/// P, Q and the modules.
fn packed(list: &mut List, k: u32) -> (u32, u32, Vec<usize>) {
    let kit = list.kit(k).unwrap();
    (kit.p, kit.q, kit.group().collect())
}

#[test]
fn by_hand() {
    // the group has two modules; where three are packed one more comes with it
    let mut chain = List::read(&files::of(5, &[(0, 1, 9), (1, 2, 2), (2, 3, 2), (3, 4, 1)])).unwrap();
    let sizes = [1, 2, 3, 4, 5].map(|k| packed(&mut chain, k));
    let two = (9, 2, vec![0, 1]);
    assert_eq!(sizes, [two.clone(), two, (11, 3, vec![0, 1, 2]), (13, 4, vec![0, 1, 2, 3]), (14, 5, (0..5).collect())]);
    assert_eq!([0, 6, 7, u32::MAX].map(|k| number(chain.kit(k))), [21; 4]);
    // more modules than k where that is denser, and the larger of equals: 4/4 and 3/3
    let mut tail = List::read(&files::of(4, &[(0, 1, 1), (0, 2, 1), (1, 2, 1), (2, 3, 1)])).unwrap();
    assert_eq!([1, 2, 3, 4].map(|k| packed(&mut tail, k)), [(); 4].map(|_| (4, 4, vec![0, 1, 2, 3])));
    // a kit need not be the densest: six modules have more than twice its ratio, but four of them leave before any module of the clique
    let six = [(0, 1, 1000), (0, 2, 353), (0, 3, 353), (0, 4, 353), (0, 5, 353)];
    let clique = (6..66).flat_map(|b| (6..b).map(move |a| (a, b, 6)));
    let mut both = List::read(&files::of(66, &six.into_iter().chain(clique).collect::<Vec<_>>())).unwrap();
    assert_eq!(packed(&mut both, 6), (2412 + 10_620, 66, (0..66).collect()));
    let members: Vec<u8> = (0..66).map(|v| (v < 6) as u8).collect();
    assert_eq!(both.surplus(&members, &[1; 66]), Ok(2412 * 66 - 13_032 * 6));
}

/// Every list of up to five modules with counts of 1, at every k up to N + 2.
#[test]
fn every_small_list() {
    let (mut random, mut met) = (Random(71), Met::default());
    for n in 1..=5 {
        let all: Vec<_> = (0..n).flat_map(|a| (a + 1..n).map(move |b| (a, b, 1))).collect();
        for chosen in 0..1u32 << all.len() {
            let pairs = (0..all.len()).filter(|j| chosen >> j & 1 == 1).map(|j| all[j]).collect();
            let list = Plain { n, pairs };
            (0..=n as u32 + 2).for_each(|k| met.see(made(&mut random, &list, k).number));
        }
    }
    met.are(&[0, 20, 21]);
}

/// The most stops inside a group of each size, by trying every subset.
fn most_inside(list: &Plain) -> Vec<usize> {
    let mut most = vec![0; list.n + 1];
    for group in 1u32..1 << list.n {
        let members: Vec<u8> = (0..list.n).map(|v| (group >> v & 1) as u8).collect();
        let size = plain::size(&members);
        most[size] = most[size].max(list.inside(&members));
    }
    most
}

/// Lists of at most 12 modules, at every k up to N + 2: three times the kit's ratio is no less than the ratio of any group with at least k modules, and
/// (2 * size + k) / size times, than that of any group. Some groups with at least k modules are denser than the kit.
#[test]
fn within_the_factors() {
    let (mut random, mut denser) = (Random(72), 0);
    for _ in 0..400 {
        let drawn = lists::with_a_pair(&mut random, lists::small);
        let most = most_inside(&drawn);
        for k in 0..=drawn.n + 2 {
            let kit = made(&mut random, &drawn, k as u32);
            if kit.number != 0 {
                continue;
            }
            let (p, q) = (kit.p as usize, kit.q as usize);
            for (size, &inside) in most.iter().enumerate().skip(1) {
                assert!(inside * q <= p * (2 * size + k), "{inside}/{size} against {p}/{q} at k = {k}");
                assert!(size < k || inside * q <= 3 * p * size, "{inside}/{size} against {p}/{q} at k = {k}");
                denser += u32::from(size >= k && inside * q > p * size);
            }
        }
    }
    assert!(denser >= 100, "{denser} denser groups");
}

/// Lists of up to 512 modules and 4,096 pairs, the heaviest among them, at the ends of what k can be and between them.
#[test]
fn large_lists() {
    let mut random = Random(73);
    let ring = (1..=8).flat_map(|step| (0..512).map(move |v| (v.min((v + step) % 512), v.max((v + step) % 512), 1000)));
    let mut heaviest = Plain { n: 512, pairs: ring.collect() };
    heaviest.pairs.sort();
    let mut drawn: Vec<Plain> = (0..60).map(|_| lists::with_a_pair(&mut random, lists::large)).collect();
    drawn.push(heaviest);
    for list in drawn {
        let n = list.n as u32;
        for k in [1, 2, 1 + random.below(list.n) as u32, n - 1, n, n + 1] {
            made(&mut random, &list, k);
        }
    }
}

/// A ring of 100 modules with p stops inside, and one module more, with 20,000 stops with the ring, which leaves first. Where p is 2,000,000 both sets have
/// the same ratio, and the larger is the kit; one stop more or less decides.
#[test]
fn ratios_close_together() {
    let mut random = Random(74);
    for (p, last, modules) in [(2_000_001, 1, 100), (2_000_000, 0, 101), (1_999_999, 999, 101)] {
        let step = |step: usize| (0..100).map(move |v| (v.min((v + step) % 100), v.max((v + step) % 100), 1000));
        let mut pairs: Vec<_> = (1..=20).flat_map(step).chain((0..20).map(|v| (v, 100, 1000))).collect();
        match last {
            0 => {}
            1 => pairs.push((0, 50, 1)),
            last => pairs[0].2 = last,
        }
        pairs.sort();
        let list = Plain { n: 101, pairs };
        for k in [1, 50, 100] {
            let verdict = Verdict { number: 0, p: if modules == 100 { p } else { p + 20_000 }, q: modules };
            assert_eq!(made(&mut random, &list, k), verdict, "k = {k}");
        }
    }
}

/// 13, 12, 20 and 21, alone and together: the first in this order is given.
#[test]
fn refusals_in_order() {
    let mut random = Random(75);
    let sound = [Pair { a: 0, b: 1, w: 1 }, Pair { a: 1, b: 2, w: 1000 }];
    let spoiled = [sound[0], Pair { w: 1001, ..sound[1] }];
    let turned = [sound[1], sound[0]];
    let agreeing = [(3, 2, &sound, 0), (3, 0, &sound, 20), (3, 0, &spoiled, 20)];
    let others = [(0, 2, &sound), (0, 0, &sound), (513, 0, &sound), (2, 2, &sound), (3, 3, &sound)];
    let damaged = [(3, 2, &spoiled), (3, 2, &turned)];
    let disagreeing = others.into_iter().chain(damaged).map(|(n, m, list)| (n, m, list, 13));
    for (n, m, list, first) in agreeing.into_iter().chain(disagreeing) {
        for (lengths, short) in [([3, WORK], false), ([2, WORK], true), ([3, WORK - 1], true), ([0, 0], true)] {
            for k in [1, 2, 3, 0, 4, 5, 512, 0x1_0001, 0x8000_0002, u32::MAX] {
                let number = match first {
                    13 => 13,
                    _ if short => 12,
                    20 => 20,
                    _ => 21 * u32::from(!(1..=3).contains(&k)),
                };
                assert_eq!(kit(&mut random, Head { n, m }, list, k, lengths).number, number, "k = {k} of {n},{m}");
            }
        }
    }
}

/// Mostly a k from 1 to N, else just outside, or far.
fn least(random: &mut Random, n: usize) -> u32 {
    match random.below(12) {
        0 => 0,
        1 => n as u32 + 1 + random.below(2) as u32,
        2 => [513, 0x1_0001, 0x8000_0001, u32::MAX][random.below(4)],
        3 => n as u32,
        _ => 1 + random.below(n) as u32,
    }
}

#[test]
fn generated_lists() {
    let (mut random, mut met) = (Random(76), Met::default());
    for _ in 0..6_000 {
        let drawn = lists::any(&mut random);
        let (head, list) = lists::lent(&mut random, &drawn);
        let (k, lengths) = (least(&mut random, drawn.n), [random.length(drawn.n), random.length(WORK)]);
        met.see(kit(&mut random, head, &list, k, lengths).number);
    }
    met.are_each(100, &[0, 12, 13, 20, 21]);
}
