//! What peel, solve, check and surplus make of stop counts (document 02, item 4): lists by hand, lists of ones against the definitions as they were before,
//! counts that are all alike, the heaviest lists, and shares above Q and above W times Q.
mod plain;

use kandurzo::{List, Peeling, Refusal};
use plain::ones::Ones;
use plain::{files, lists, Plain, Random};

fn list(n: usize, pairs: &[(usize, usize, usize)]) -> List {
    List::read(&files::of(n, pairs)).unwrap()
}

fn number<T: std::fmt::Debug>(answer: Result<T, Refusal>) -> u32 {
    answer.map_or_else(Refusal::number, |_| 0)
}

/// P, Q, K, core size, members and core numbers; the sheet is accepted.
fn found(list: &mut List) -> (u32, u32, u32, u32, Vec<usize>, Vec<u32>) {
    let found = list.solve().unwrap();
    assert_eq!(list.check(&found.members, &found.shares), Ok((found.p, found.q)));
    assert_eq!(found.ratio, found.p as f64 / found.q as f64);
    (found.p, found.q, found.k, found.core_size, found.group().collect(), found.cores)
}

#[test]
fn by_hand() {
    // three stops outweigh the longer path
    let mut path = list(3, &[(0, 1, 3), (1, 2, 1)]);
    assert_eq!(found(&mut path), (3, 2, 2, 2, vec![0, 1], vec![3, 3, 1]));
    assert_eq!(path.peel(), Ok(Peeling { order: vec![2, 0, 1], cores: vec![3, 3, 1] }));
    assert_eq!(path.solve().unwrap().shares, [3, 0]);
    let mut path = list(3, &[(0, 1, 2), (1, 2, 2)]);
    assert_eq!(found(&mut path), (4, 3, 2, 3, vec![0, 1, 2], vec![2, 2, 2]));
    assert_eq!(path.solve().unwrap().shares, [4, 2]);
    // of equal ratios, the larger group: 2/2 and 2/2; a triangle of ones and a pair of two stops
    assert_eq!(found(&mut list(4, &[(0, 1, 2), (2, 3, 2)])), (4, 4, 1, 4, vec![0, 1, 2, 3], vec![2; 4]));
    assert_eq!(found(&mut list(4, &[(0, 1, 2), (2, 3, 3)])), (3, 2, 2, 4, vec![2, 3], vec![2, 2, 3, 3]));
    let triangle = [(0, 1, 1), (0, 2, 1), (1, 2, 1), (3, 4, 2)];
    assert_eq!(found(&mut list(5, &triangle)), (5, 5, 1, 5, vec![0, 1, 2, 3, 4], vec![2; 5]));
    // one pair more than once against all pairs of four modules
    let tail = [(0, 1, 1), (0, 2, 1), (0, 3, 1), (1, 2, 1), (1, 3, 1), (2, 3, 1), (3, 4, 4)];
    let mut tail = list(5, &tail);
    assert_eq!(found(&mut tail), (10, 5, 2, 5, vec![0, 1, 2, 3, 4], vec![3, 3, 3, 4, 4]));
    tail.add(4, 3, 1).unwrap();
    assert_eq!(found(&mut tail), (5, 2, 3, 5, vec![3, 4], vec![3, 3, 3, 5, 5]));
    assert_eq!(tail.surplus(&[0, 0, 0, 1, 1], &[1; 5]), Ok(5 * 5 - 11 * 2));
    assert_eq!(tail.surplus(&[1, 0, 0, 0, 1], &[0, 0, 0, 1, 1]), Ok(-10));
}

/// A share is of W times Q units: up to that it can be right, one more gives 8, which comes before 9.
#[test]
fn shares_by_hand() {
    // loads 3,3,0 at P/Q = 3/2; the pair 1,2 goes to module 2
    let mut path = list(3, &[(0, 1, 3), (1, 2, 1)]);
    let group = [1, 1, 0];
    assert_eq!(path.check(&group, &[3, 0]), Ok((3, 2)));
    for (shares, wanted) in
        [([3, 1], 9), ([3, 2], 9), ([4, 0], 9), ([6, 0], 9), ([6, 2], 9), ([7, 0], 8), ([3, 3], 8), ([u32::MAX, 0], 8)]
    {
        assert_eq!(number(path.check(&group, &shares)), wanted, "{shares:?}");
    }
    assert_eq!((number(path.check(&[2, 1, 0], &[7, 0])), number(path.check(&[1; 3], &[9, 4]))), (7, 8));
    // one pair of 1,000 stops: 2,000 units, half of them to each end
    let mut pair = list(2, &[(0, 1, 1000)]);
    assert_eq!(pair.check(&[1, 1], &[1000]), Ok((1000, 2)));
    for (share, wanted) in [(999, 9), (1001, 9), (2000, 9), (2001, 8), (0x1_03e8, 8), (0, 9)] {
        assert_eq!(number(pair.check(&[1, 1], &[share])), wanted, "{share}");
    }
}

/// The share of each pair set to all its units, and to one more, and to none: 8 exactly where it is more than W times Q.
#[test]
fn shares_at_their_edges() {
    let (mut random, mut above_q) = (Random(61), 0);
    for _ in 0..600 {
        let drawn = lists::with_a_pair(&mut random, lists::small);
        let mut list = list(drawn.n, &drawn.pairs);
        let found = list.solve().unwrap();
        for (j, &(a, b, w)) in drawn.pairs.iter().enumerate() {
            let units = w as u32 * found.q;
            for (share, eight) in [(units, false), (units + 1, true), (found.q, false), (1001 * 512, true), (0, false)]
            {
                let mut shares = found.shares.clone();
                shares[j] = share;
                let answer = number(list.check(&found.members, &shares));
                assert_eq!(answer == 8, eight, "{share} of {units} units of {a},{b},{w}");
            }
            above_q += u32::from(found.shares[j] > found.q);
        }
    }
    assert!(above_q > 1_000, "{above_q} shares above Q");
}

/// Lists of ones get the answers that they got before pairs had counts; only that those without pairs get 20 from solve and check (item 6).
#[test]
fn ones_as_before() {
    let (mut random, mut without_pairs) = (Random(62), 0);
    for _ in 0..3_000 {
        let drawn = lists::small(&mut random).ones();
        let (before, mut list) = (Ones::of(&drawn), list(drawn.n, &drawn.pairs));
        let (members, cores) = before.by_subsets();
        let group: Vec<u8> = (0..drawn.n).map(|_| random.below(2) as u8).collect();
        assert_eq!(list.peel(), Ok(Peeling { order: before.leaving(), cores: cores.clone() }));
        if group.contains(&1) {
            assert_eq!(list.surplus(&group, &members), Ok(before.surplus(&group, &members)));
        }
        if drawn.pairs.is_empty() {
            let checks = [&members, &group].map(|group| number(list.check(group, &[])));
            assert_eq!((number(list.solve()), checks), (20, [20, 20]));
            without_pairs += 1;
            continue;
        }
        let found = list.solve().unwrap();
        let (p, q) = (before.inside(&members) as u32, members.iter().filter(|&&x| x == 1).count() as u32);
        assert_eq!((&found.members, &found.cores, found.p, found.q), (&members, &cores, p, q));
        assert_eq!(
            (found.k, found.core_size),
            (p.div_ceil(q), cores.iter().filter(|&&c| c >= p.div_ceil(q)).count() as u32)
        );
        assert_eq!(before.check(&found.members, &found.shares), (0, p, q));
        let shares: Vec<u32> =
            found.shares.iter().map(|&share| if random.once_in(9) { random.below(14) as u32 } else { share }).collect();
        for (members, shares) in [(&members, &shares), (&group, &shares)] {
            let (number, p, q) = before.check(members, shares);
            assert_eq!(
                list.check(members, shares).map_err(Refusal::number),
                if number == 0 { Ok((p, q)) } else { Err(number) }
            );
        }
    }
    assert!(without_pairs >= 100, "{without_pairs} lists without pairs");
}

/// Counts that are all alike: the same group, leaving order and core size as with ones; inside count and core numbers so many times as high. A sheet of the
/// list of ones, each share so many times as high, is a sheet of this list.
#[test]
fn counts_all_alike() {
    let mut random = Random(63);
    for _ in 0..300 {
        let drawn = lists::with_a_pair(&mut random, lists::any).ones();
        let times = [2, 3, 10, 512, 999, 1000][random.below(6)];
        let alike = Plain { n: drawn.n, pairs: drawn.pairs.iter().map(|&(a, b, _)| (a, b, times)).collect() };
        let (mut one, mut many) = (list(drawn.n, &drawn.pairs), list(alike.n, &alike.pairs));
        let (ones, alike, times) = (one.solve().unwrap(), many.solve().unwrap(), times as u32);
        let by = |numbers: &[u32]| numbers.iter().map(|x| x * times).collect::<Vec<u32>>();
        assert_eq!((alike.p, alike.q, &alike.members), (ones.p * times, ones.q, &ones.members));
        assert_eq!(alike.cores, by(&ones.cores));
        assert_eq!(many.peel().unwrap().order, one.peel().unwrap().order);
        assert_eq!(many.check(&ones.members, &by(&ones.shares)), Ok((alike.p, alike.q)));
        assert_eq!(
            many.surplus(&vec![1; drawn.n], &ones.members),
            one.surplus(&vec![1; drawn.n], &ones.members).map(|x| x * times as i64)
        );
    }
}

/// The heaviest lists, 4,096 pairs of 1,000 stops each: spread over 512 modules, where P is 4,096,000, and among as few modules as can be, where a core
/// number is 90,000.
#[test]
fn heaviest() {
    let ring = |v: usize, step: usize| (v.min((v + step) % 512), v.max((v + step) % 512), 1000);
    let mut pairs: Vec<_> = (1..=8).flat_map(|step| (0..512).map(move |v| ring(v, step))).collect();
    pairs.sort();
    let mut spread = list(512, &pairs);
    assert_eq!(found(&mut spread), (4_096_000, 512, 8000, 512, (0..512).collect(), vec![16_000; 512]));
    assert_eq!(spread.surplus(&[1; 512], &[&[1, 1][..], &[0; 510]].concat()), Ok(2 * 4_096_000 - 512 * 1000));
    let best = spread.solve().unwrap();
    assert_eq!(
        best.shares.iter().map(|&share| share as usize).sum::<usize>() + rest(&best.shares, 512_000),
        4_096_000 * 512
    );
    let mut clique: Vec<_> = (0..91).flat_map(|b| (0..b).map(move |a| (a, b, 1000))).collect();
    clique.push((90, 91, 1000));
    let mut clique = list(512, &clique);
    let (p, q, k, size, members, cores) = found(&mut clique);
    assert_eq!((p, q, k, size, members), (4_095_000, 91, 45_000, 91, (0..91).collect::<Vec<_>>()));
    assert_eq!(cores, [&[90_000; 91][..], &[1000], &[0; 420]].concat());
    // a hub: 511,000 stops of one module
    let hub: Vec<_> = (1..512).map(|b| (0, b, 1000)).collect();
    let mut hub = list(512, &hub);
    assert_eq!(found(&mut hub), (511_000, 512, 999, 512, (0..512).collect(), vec![1000; 512]));
    assert_eq!(hub.peel().unwrap().order, (1..511).chain([0, 511]).collect::<Vec<u16>>());
    assert_eq!(number(hub.check(&[1; 512], &[512_001; 511])), 8);
    assert_eq!(number(hub.check(&[1; 512], &[512_000; 511])), 9);
}

/// What the larger modules receive.
fn rest(shares: &[u32], units: usize) -> usize {
    shares.iter().map(|&share| units - share as usize).sum()
}
