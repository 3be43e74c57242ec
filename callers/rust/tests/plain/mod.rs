//! A plain second computation of the definitions of document 01 and of document 02, items 2 to 4, 6 and 7, as slow and as literal as it may be; in files of
//! their own, generators of lists (`lists`), pair files (`files`) and DIMACS edge files (`dimacs`).
#![allow(dead_code)]
pub mod buffers;
pub mod dimacs;
pub mod ends;
pub mod files;
pub mod lists;
pub mod ones;

use kandurzo::{Head, Pair};

/// A small deterministic generator (splitmix64).
pub struct Random(pub u64);

impl Random {
    pub fn next(&mut self) -> u64 {
        self.0 = self.0.wrapping_add(0x9E37_79B9_7F4A_7C15);
        let x = (self.0 ^ (self.0 >> 30)).wrapping_mul(0xBF58_476D_1CE4_E5B9);
        let x = (x ^ (x >> 27)).wrapping_mul(0x94D0_49BB_1331_11EB);
        x ^ (x >> 31)
    }

    /// A number below `bound`.
    pub fn below(&mut self, bound: usize) -> usize {
        (self.next() % bound as u64) as usize
    }

    /// True once in `times` draws.
    pub fn once_in(&mut self, times: usize) -> bool {
        self.below(times) == 0
    }

    /// A buffer's length: mostly as wanted, else short by one or longer.
    pub fn length(&mut self, wanted: usize) -> usize {
        match self.below(16) {
            0 => wanted.saturating_sub(1),
            1 => wanted + 1,
            2 => wanted + 9,
            _ => wanted,
        }
    }
}

/// 13: N outside 1 to 512, M above 4,096 or above the list's length, or the first M records not as described, a count outside 1 to 1,000 among them.
pub fn agree(head: Head, list: &[Pair]) -> bool {
    let (n, m) = (head.n as usize, head.m as usize);
    let sizes = (1..=512).contains(&n) && m <= 4096 && m <= list.len();
    sizes
        && list[..m].iter().all(|p| p.a < p.b && (p.b as usize) < n && (1..=1000).contains(&p.w))
        && list[..m].windows(2).all(|two| two[0].ends() < two[1].ends())
}

/// A list: N and its pairs, each with its stop count.
#[derive(Clone, Debug)]
pub struct Plain {
    pub n: usize,
    pub pairs: Vec<(usize, usize, usize)>,
}

impl Plain {
    pub fn of(head: Head, list: &[Pair]) -> Plain {
        let held = &list[..head.m as usize];
        Plain { n: head.n as usize, pairs: held.iter().map(|p| (p.a as usize, p.b as usize, p.w as usize)).collect() }
    }

    pub fn head(&self) -> Head {
        Head { n: self.n as u32, m: self.pairs.len() as u32 }
    }

    pub fn records(&self) -> Vec<Pair> {
        self.pairs.iter().map(|&(a, b, w)| Pair { a: a as u16, b: b as u16, w: w as u16 }).collect()
    }

    /// The same pairs, with the count 1 each.
    pub fn ones(&self) -> Plain {
        Plain { n: self.n, pairs: self.pairs.iter().map(|&(a, b, _)| (a, b, 1)).collect() }
    }

    /// The stop counts of the pairs with both ends in the group, added up.
    pub fn inside(&self, group: &[u8]) -> usize {
        self.pairs.iter().filter(|&&(a, b, _)| group[a] == 1 && group[b] == 1).map(|pair| pair.2).sum()
    }

    /// For each module the others that it is paired with, and how often.
    fn partners(&self) -> Vec<Vec<(usize, usize)>> {
        let mut partners = vec![vec![]; self.n];
        for &(a, b, w) in &self.pairs {
            partners[a].push((b, w));
            partners[b].push((a, w));
        }
        partners
    }

    /// Again and again the module with fewest stops with modules still present leaves; of equals, the lowest number.
    pub fn leaving(&self) -> Vec<u16> {
        let partners = self.partners();
        let mut fewest: Vec<usize> = partners.iter().map(|with| with.iter().map(|other| other.1).sum()).collect();
        let mut present = vec![true; self.n];
        let mut order = vec![];
        for _ in 0..self.n {
            let leaver = (0..self.n).filter(|&v| present[v]).min_by_key(|&v| (fewest[v], v)).unwrap();
            present[leaver] = false;
            partners[leaver].iter().for_each(|&(u, w)| fewest[u] -= w);
            order.push(leaver as u16);
        }
        order
    }

    /// The sets left over in the leaving order: what is present when 0, 1, 2 and so on modules have left.
    pub fn left_over(&self) -> Vec<Vec<u8>> {
        let mut sets = vec![vec![1; self.n]];
        for leaver in self.leaving() {
            let mut left = sets.last().unwrap().clone();
            left[leaver as usize] = 0;
            sets.push(left);
        }
        sets
    }

    /// Of the sets left over with at least k modules, k being 1 to N, the one of greatest ratio; of equals, the larger. Its member bytes, P and Q.
    pub fn kit(&self, k: usize) -> (Vec<u8>, usize, usize) {
        let by_ratio_then_size = |one: &Vec<u8>, other: &Vec<u8>| {
            let ratios = (self.inside(one) * size(other)).cmp(&(self.inside(other) * size(one)));
            ratios.then(size(one).cmp(&size(other)))
        };
        let kit = self.left_over().into_iter().filter(|set| size(set) >= k).max_by(by_ratio_then_size).unwrap();
        let (p, q) = (self.inside(&kit), size(&kit));
        (kit, p, q)
    }

    /// For each k: drop modules with fewer than k stops with those kept, until none is left to drop; those kept have core number k or more. They are
    /// among those kept for any smaller k, and for each k up to the fewest stops that one of them has they are the same ones.
    pub fn cores(&self) -> Vec<u32> {
        let partners = self.partners();
        let (mut cores, mut kept, mut k) = (vec![0; self.n], vec![true; self.n], 1);
        let stops = |kept: &[bool], v: usize| {
            partners[v].iter().filter(|other| kept[other.0]).map(|other| other.1).sum::<usize>()
        };
        loop {
            let mut dropped = true;
            while dropped {
                dropped = false;
                for v in 0..self.n {
                    if kept[v] && stops(&kept, v) < k {
                        kept[v] = false;
                        dropped = true;
                    }
                }
            }
            let Some(fewest) = (0..self.n).filter(|&v| kept[v]).map(|v| stops(&kept, v)).min() else {
                return cores;
            };
            (0..self.n).filter(|&v| kept[v]).for_each(|v| cores[v] = fewest as u32);
            k = fewest + 1;
        }
    }

    /// The largest group of greatest ratio, and all core numbers, by trying every subset (N up to 12).
    pub fn by_subsets(&self) -> (Vec<u8>, Vec<u32>) {
        let mut stops = vec![vec![0; self.n]; self.n];
        for &(a, b, w) in &self.pairs {
            (stops[a][b], stops[b][a]) = (w, w);
        }
        let (mut best, mut best_p, mut best_q, mut equals) = (0u32, 0, 0, 0);
        let mut cores = vec![0; self.n];
        for group in 1u32..1 << self.n {
            let within: Vec<usize> = (0..self.n).filter(|v| group >> v & 1 == 1).collect();
            let degrees = within.iter().map(|&v| within.iter().map(|&u| stops[v][u]).sum::<usize>());
            let (p, q, least) = (degrees.clone().sum::<usize>() / 2, within.len(), degrees.min().unwrap());
            within.iter().for_each(|&v| cores[v] = cores[v].max(least as u32));
            if best == 0 || p * best_q > best_p * q || (p * best_q == best_p * q && q > best_q) {
                (best, best_p, best_q, equals) = (group, p, q, 0);
            }
            equals += (p == best_p && q == best_q) as u32;
        }
        assert_eq!(equals, 1, "there is one largest group");
        ((0..self.n).map(|v| (best >> v & 1) as u8).collect(), cores)
    }

    /// What each module receives, if the shares are a split at size q: a pair has W times q units.
    pub fn loads(&self, shares: &[u32], q: usize) -> Option<Vec<usize>> {
        let mut loads = vec![0; self.n];
        for (&(a, b, w), &share) in self.pairs.iter().zip(shares) {
            loads[a] += share as usize;
            loads[b] += (w * q).checked_sub(share as usize)?;
        }
        Some(loads)
    }

    /// The largest group of ratio p/q, read off a split at size q with no load above p. Any group of that ratio has all its loads at p, and its
    /// members receive nothing from pairs that lead out of it; so what breaks this rule is dropped until nothing does.
    pub fn largest_by_split(&self, shares: &[u32], p: usize, q: usize) -> Vec<u8> {
        let loads = self.loads(shares, q).expect("a split");
        assert!(loads.iter().all(|&load| load <= p), "a load above P");
        let mut group: Vec<u8> = loads.iter().map(|&load| (load == p) as u8).collect();
        loop {
            let before = group.clone();
            for (&(a, b, w), &share) in self.pairs.iter().zip(shares) {
                if group[b] == 0 && share > 0 {
                    group[a] = 0;
                }
                if group[a] == 0 && (share as usize) < w * q {
                    group[b] = 0;
                }
            }
            if group == before {
                return group;
            }
        }
    }

    /// The pairs in a random order, and each in either order.
    pub fn scattered(&self, random: &mut Random) -> Vec<(usize, usize, usize)> {
        let mut pairs = self.pairs.clone();
        for i in (1..pairs.len()).rev() {
            pairs.swap(i, random.below(i + 1));
        }
        pairs.into_iter().map(|(a, b, w)| if random.once_in(2) { (a, b, w) } else { (b, a, w) }).collect()
    }
}

/// How many modules a set has.
pub fn size(set: &[u8]) -> usize {
    set.iter().filter(|&&x| x == 1).count()
}

/// Whether the first N bytes are a group: none above 1, and one that is 1.
pub fn is_group(n: usize, members: &[u8]) -> bool {
    members[..n].iter().all(|&x| x <= 1) && members[..n].contains(&1)
}

/// Solve's number, with so many member bytes, core numbers, shares and words of work.
pub fn solve(head: Head, list: &[Pair], [members, cores, shares, work]: [usize; 4]) -> u32 {
    let (n, m) = (head.n as usize, head.m as usize);
    if !agree(head, list) {
        13
    } else if members < n || cores < n || shares < m || work < 16384 {
        12
    } else {
        20 * (m == 0) as u32
    }
}

/// Check's number, P and Q.
pub fn check(head: Head, list: &[Pair], members: &[u8], shares: &[u32], work: usize) -> (u32, u32, u32) {
    if !agree(head, list) {
        return (13, 0, 0);
    }
    let plain = Plain::of(head, list);
    if members.len() < plain.n || shares.len() < plain.pairs.len() || work < 16384 {
        return (12, 0, 0);
    }
    if plain.pairs.is_empty() {
        return (20, 0, 0);
    }
    if !is_group(plain.n, members) {
        return (7, 0, 0);
    }
    let q = size(&members[..plain.n]);
    let p = plain.inside(members);
    match plain.loads(shares, q) {
        None => (8, 0, 0),
        Some(loads) if loads.iter().any(|&load| load > p) => (9, 0, 0),
        Some(_) => (0, p as u32, q as u32),
    }
}

/// Surplus's number and value.
pub fn surplus(head: Head, list: &[Pair], first: &[u8], second: &[u8]) -> (u32, i64) {
    if !agree(head, list) {
        return (13, 0);
    }
    let plain = Plain::of(head, list);
    if first.len() < plain.n || second.len() < plain.n {
        return (12, 0);
    }
    if !is_group(plain.n, first) || !is_group(plain.n, second) {
        return (7, 0);
    }
    let size = |group: &[u8]| size(&group[..plain.n]) as i64;
    (0, size(second) * plain.inside(first) as i64 - plain.inside(second) as i64 * size(first))
}

/// Kit's number, with so many member bytes and words of work.
pub fn kit(head: Head, list: &[Pair], k: u32, [members, work]: [usize; 2]) -> u32 {
    if !agree(head, list) {
        13
    } else if members < head.n as usize || work < 16384 {
        12
    } else if head.m == 0 {
        20
    } else {
        21 * !(1..=head.n).contains(&k) as u32
    }
}
