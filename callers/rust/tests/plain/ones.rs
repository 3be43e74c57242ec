//! The definitions of document 01 as they were before pairs had stop counts: pairs are counted, each has Q units. Lists of ones must get these answers,
//! those without pairs from peel and surplus only.
use super::Plain;

pub struct Ones {
    n: usize,
    pairs: Vec<(usize, usize)>,
}

impl Ones {
    pub fn of(list: &Plain) -> Ones {
        Ones { n: list.n, pairs: list.pairs.iter().map(|&(a, b, _)| (a, b)).collect() }
    }

    /// How many pairs have both ends in the group.
    pub fn inside(&self, group: &[u8]) -> usize {
        self.pairs.iter().filter(|&&(a, b)| group[a] == 1 && group[b] == 1).count()
    }

    /// How many pairs a module has with modules that are in.
    fn with(&self, v: usize, kept: &[bool]) -> usize {
        self.pairs.iter().filter(|&&(a, b)| (a == v && kept[b]) || (b == v && kept[a])).count()
    }

    /// Again and again the module with fewest pairs to modules still present leaves; of equals, the lowest number.
    pub fn leaving(&self) -> Vec<u16> {
        let mut present = vec![true; self.n];
        let mut order = vec![];
        for _ in 0..self.n {
            let left = (0..self.n).filter(|&v| present[v]);
            let leaver = left.min_by_key(|&v| (self.with(v, &present), v)).unwrap();
            present[leaver] = false;
            order.push(leaver as u16);
        }
        order
    }

    /// The largest group of most pairs a module, and all core numbers, by trying every subset (N up to 12).
    pub fn by_subsets(&self) -> (Vec<u8>, Vec<u32>) {
        let mut row = vec![0u32; self.n];
        for &(a, b) in &self.pairs {
            row[a] |= 1 << b;
            row[b] |= 1 << a;
        }
        let (mut best, mut best_p, mut best_q) = (0u32, 0, 0);
        let mut cores = vec![0; self.n];
        for group in 1u32..1 << self.n {
            let within = (0..self.n).filter(|v| group >> v & 1 == 1);
            let degrees: Vec<u32> = within.clone().map(|v| (row[v] & group).count_ones()).collect();
            let (p, q) = (degrees.iter().sum::<u32>() / 2, degrees.len() as u32);
            let least = *degrees.iter().min().unwrap();
            within.for_each(|v| cores[v] = cores[v].max(least));
            if best == 0 || p * best_q > best_p * q || (p * best_q == best_p * q && q > best_q) {
                (best, best_p, best_q) = (group, p, q);
            }
        }
        ((0..self.n).map(|v| (best >> v & 1) as u8).collect(), cores)
    }

    /// Check's number, P and Q, of a list with a pair and buffers that are long enough: 7, 8, 9.
    pub fn check(&self, members: &[u8], shares: &[u32]) -> (u32, u32, u32) {
        if members.iter().any(|&x| x > 1) || !members.contains(&1) {
            return (7, 0, 0);
        }
        let (p, q) = (self.inside(members), members.iter().filter(|&&x| x == 1).count());
        if shares.iter().any(|&share| share as usize > q) {
            return (8, 0, 0);
        }
        let mut loads = vec![0; self.n];
        for (&(a, b), &share) in self.pairs.iter().zip(shares) {
            loads[a] += share as usize;
            loads[b] += q - share as usize;
        }
        if loads.iter().any(|&load| load > p) {
            return (9, 0, 0);
        }
        (0, p as u32, q as u32)
    }

    /// Surplus of two groups.
    pub fn surplus(&self, first: &[u8], second: &[u8]) -> i64 {
        let size = |group: &[u8]| group.iter().map(|&x| x as i64).sum::<i64>();
        size(second) * self.inside(first) as i64 - self.inside(second) as i64 * size(first)
    }
}
