//! `List`: the lists that document 01 tries by hand, lists without pairs, and long runs of edits against a table of pairs and their stop counts.
mod plain;

use kandurzo::{Kit, List, Pair, Peeling, Place, Refusal};
use plain::{dimacs, files, lists, Plain, Random};
use std::collections::BTreeMap;

/// The list of n modules and these pairs, with one stop each.
fn list(n: u32, pairs: &[(u32, u32)]) -> List {
    let mut list = List::new(n).unwrap();
    pairs.iter().for_each(|&(a, b)| list.add(a, b, 1).unwrap());
    list
}

fn number<T: std::fmt::Debug>(answer: Result<T, Refusal>) -> u32 {
    answer.unwrap_err().number()
}

/// P, Q and the members.
fn found(list: &mut List) -> (u32, u32, Vec<usize>) {
    let found = list.solve().unwrap();
    assert_eq!(list.check(&found.members, &found.shares), Ok((found.p, found.q)));
    (found.p, found.q, found.group().collect())
}

const TAIL: [(u32, u32); 7] = [(0, 1), (0, 2), (0, 3), (1, 2), (1, 3), (2, 3), (3, 4)];

#[test]
fn tried_by_hand() {
    // 0/1 and member 0 in document 01; 20 since document 02, item 6
    let mut lone = list(1, &[]);
    assert_eq!((number(lone.solve()), number(lone.check(&[1], &[]))), (20, 20));
    assert_eq!(found(&mut list(2, &[(0, 1)])), (1, 2, vec![0, 1]));
    let mut path = list(3, &[(0, 1), (1, 2)]);
    assert_eq!((found(&mut path), path.peel().unwrap().cores), ((2, 3, vec![0, 1, 2]), vec![1, 1, 1]));
    assert_eq!(found(&mut list(6, &[(0, 1), (0, 2), (1, 2), (3, 4), (3, 5), (4, 5)])), (6, 6, (0..6).collect()));
    assert_eq!(found(&mut list(4, &[(0, 1), (0, 2), (1, 2)])), (3, 3, vec![0, 1, 2]));
    assert_eq!(found(&mut list(4, &[(0, 1), (0, 2), (1, 2), (2, 3)])), (4, 4, vec![0, 1, 2, 3]));
    let mut tail = list(5, &TAIL);
    assert_eq!(found(&mut tail), (6, 4, vec![0, 1, 2, 3]));
    let peeled = tail.peel().unwrap();
    assert_eq!((peeled.cores, peeled.order), (vec![3, 3, 3, 3, 1], vec![4, 0, 1, 2, 3]));
    let best = tail.solve().unwrap();
    assert_eq!((best.k, best.core_size, best.ratio), (2, 4, 1.5));
    assert_eq!(tail.surplus(&[1, 1, 0, 0, 0], &best.members), Ok(-8));
    assert_eq!(tail.surplus(&[1; 5], &best.members), Ok(-2));
    assert_eq!(path.check(&[1; 3], &[2, 1]), Ok((2, 3)));
    assert_eq!(number(path.check(&[1; 3], &[3, 1])), 9);
    assert_eq!(number(path.check(&[1; 3], &[4, 1])), 8);
    assert!(List::new(512).is_ok());
    assert_eq!((number(List::new(0)), number(List::new(513))), (2, 2));
    assert_eq!(number(List::read(b"modules=01\npairs=0\n")), 1);
    // 4 in document 01; 5 since document 02, item 2
    assert_eq!(number(List::read(b"modules=5\npairs=1\n9,9,1\n")), 5);
}

#[test]
fn refusals_have_numbers_and_texts() {
    let mut tail = list(5, &TAIL);
    assert_eq!(List::new(0).unwrap_err().to_string(), "2: N outside 1 to 512");
    assert_eq!((number(tail.add(0, 5, 1)), number(tail.add(2, 2, 1)), number(tail.add(1, 0, 1000))), (4, 5, 19));
    assert_eq!((number(tail.add(0, 5, 0)), number(tail.add(2, 2, 0)), number(tail.add(1, 0, 1001))), (4, 5, 18));
    assert_eq!((number(tail.remove(0, 5)), number(tail.remove(2, 2)), number(tail.remove(4, 0))), (4, 5, 14));
    assert_eq!((number(tail.add(5, 5, 1)), number(tail.remove(9, 9)), number(tail.add(5, 9, 1))), (5, 5, 4));
    assert_eq!((number(tail.place(0, 5)), number(tail.place(2, 2)), number(tail.place(5, 5))), (4, 5, 5));
    assert_eq!((number(tail.check(&[1; 4], &[0; 7])), number(tail.check(&[1; 5], &[0; 6]))), (12, 12));
    assert_eq!((number(tail.check(&[0; 5], &[0; 7])), number(tail.surplus(&[1; 5], &[2; 5]))), (7, 7));
    assert_eq!((number(tail.surplus(&[1; 4], &[1; 5])), number(tail.surplus(&[1; 5], &[1; 4]))), (12, 12));
    assert_eq!(tail.remove(4, 0).unwrap_err().text(), "the pair to remove is not held");
    assert_eq!(tail.add(0, 1, 0).unwrap_err().to_string(), "18: W outside 1 to 1,000");
    assert_eq!(tail.add(0, 1, 1000).unwrap_err().to_string(), "19: the raised count passes 1,000");
    assert_eq!(
        List::read(b"modules=2\npairs=2\n0,1,1\n1,0,1\n").unwrap_err().to_string(),
        "10: the pair is named on an earlier line"
    );
    assert_eq!(tail.check(&[1; 5], &[6; 7]).unwrap_err().text(), "a share above W times Q among the first M");
    assert_eq!(tail.kit(0).unwrap_err().to_string(), "21: k outside 1 to N");
    assert_eq!([6, 7, u32::MAX].map(|k| number(tail.kit(k))), [21; 3]);
    let mut none = list(5, &[]);
    assert_eq!(none.solve().unwrap_err().to_string(), "20: the list holds no pair");
    assert_eq!(none.check(&[1; 5], &[]).unwrap_err().text(), "the list holds no pair");
    assert_eq!((number(none.check(&[2; 5], &[])), number(none.check(&[0; 5], &[u32::MAX; 7]))), (20, 20));
    assert_eq!((number(none.check(&[1; 4], &[])), number(none.check(&[], &[0; 7]))), (12, 12));
}

/// A list without pairs, which has no group: solve, check and kit turn it down, all else serves it.
fn turned_down(list: &mut List) {
    let n = list.modules();
    let (all, one) = (vec![1; n], [&[1][..], &vec![0; n - 1]].concat());
    assert_eq!((number(list.solve()), number(list.check(&all, &[])), number(list.check(&one, &[0]))), (20, 20, 20));
    assert_eq!([0, 1, n as u32, n as u32 + 1, u32::MAX].map(|k| number(list.kit(k))), [20; 5]);
    assert_eq!(list.peel(), Ok(Peeling { order: (0..n as u16).collect(), cores: vec![0; n] }));
    assert_eq!((list.surplus(&all, &one), number(list.surplus(&one, &vec![0; n]))), (Ok(0), 7));
    assert_eq!(list.write_dimacs(), Ok(format!("p edge {n} 0\n").into_bytes()));
    assert!(list.pairs().is_empty());
}

#[test]
fn no_stops_no_group() {
    for n in [1, 2, 3, 12, 512] {
        turned_down(&mut list(n, &[]));
        turned_down(&mut List::read(&files::of(n as usize, &[])).unwrap());
        turned_down(&mut List::read_dimacs(format!("c no stops\np edge {n} 0\n").as_bytes()).unwrap());
    }
    // new machine types get their first stops, and lose them
    for n in [2, 3, 12, 512] {
        let (mut machine, last) = (list(n, &[]), n - 1);
        assert_eq!((machine.place(last, 0), number(machine.remove(0, last))), (Ok(Place { held: false, at: 0 }), 14));
        for stops in [1, 1000] {
            machine.add(last, 0, stops).unwrap();
            assert_eq!(machine.pairs(), [Pair { a: 0, b: last as u16, w: stops as u16 }]);
            assert_eq!(found(&mut machine), (stops, 2, vec![0, last as usize]));
            machine.remove(0, last).unwrap();
            turned_down(&mut machine);
        }
    }
}

#[test]
fn dimacs_files() {
    let text = b"p edge 5 7\ne 1 2\ne 1 3\ne 1 4\ne 2 3\ne 2 4\ne 3 4\ne 4 5\n";
    assert_eq!(list(5, &TAIL).write_dimacs().unwrap(), text);
    let mut tail = List::read_dimacs(text).unwrap();
    assert_eq!((tail.modules(), found(&mut tail)), (5, (6, 4, vec![0, 1, 2, 3])));
    let mut lone = List::read_dimacs(b"c a new machine\np edge 1 0\n").unwrap();
    assert_eq!((lone.modules(), lone.pairs().len(), lone.write_dimacs().unwrap()), (1, 0, b"p edge 1 0\n".to_vec()));
    assert_eq!(number(lone.solve()), 20);
    let refused = |text: &[u8]| List::read_dimacs(text).unwrap_err();
    assert_eq!(
        refused(b"").to_string(),
        "16: a line of none of these forms, out of place, or lacking its LF, or no `p` line"
    );
    assert_eq!(refused(b"p edge 2 1\n").to_string(), "17: the count of `e` lines isn't M");
    assert_eq!((refused(b"p edge 0 0\n").number(), refused(b"p edge 2 4097\n").number()), (2, 3));
    assert_eq!((refused(b"p edge 2 1\ne 0 1\n").number(), refused(b"p edge 2 1\ne 1 1\n").number()), (4, 5));
    assert_eq!((refused(b"p edge 2 1\ne 0 0\n").number(), refused(b"p edge 2 1\ne 3 3\n").number()), (5, 5));
    assert_eq!((refused(b"p edge 2 2\ne 1 2\ne 2 1\n").number(), refused(b"p edge 2 1\ne 1 2 1\n").number()), (10, 16));
}

#[test]
fn printed_for_debugging() {
    let mut pair = list(2, &[(1, 0)]);
    pair.solve().unwrap();
    assert_eq!(format!("{:?}", pair.clone()), "List { modules: 2, pairs: [Pair { a: 0, b: 1, w: 1 }] }");
}

type Held = BTreeMap<(usize, usize), usize>;

/// The list holds the pairs and counts of the table, a list read from either of the table's files is the same, as far as a DIMACS file can say, and it is
/// written as its DIMACS file. It is peeled and solved as the table is, and packed into kits; solve and kit turn it down where no pair is held.
fn holds(list: &mut List, random: &mut Random, held: &Held) {
    let plain = Plain { n: list.modules(), pairs: held.iter().map(|(&(a, b), &w)| (a, b, w)).collect() };
    assert_eq!(list.pairs(), plain.records());
    assert_eq!(List::read(&files::scattered(&plain, random)).unwrap().pairs(), list.pairs());
    let from_dimacs = List::read_dimacs(&dimacs::lines(&plain, random).concat()).unwrap();
    assert_eq!(from_dimacs.pairs(), plain.ones().records());
    assert_eq!(list.write_dimacs(), Ok(dimacs::write(&plain)));
    let peeled = list.peel().unwrap();
    assert_eq!((&peeled.order, &peeled.cores), (&plain.leaving(), &plain.cores()));
    if held.is_empty() {
        return turned_down(list);
    }
    let found = list.solve().unwrap();
    assert_eq!(found.cores, peeled.cores);
    assert_eq!(found.members, plain.largest_by_split(&found.shares, found.p as usize, found.q as usize));
    let k = 1 + random.below(plain.n);
    let (members, p, q) = plain.kit(k);
    assert_eq!(list.kit(k as u32), Ok(Kit { p: p as u32, q: q as u32, members }));
}

/// The number that remove gives, None where it takes the pair out.
fn removed(held: &mut Held, pair: (usize, usize)) -> Option<u32> {
    match pair {
        (a, b) if a == b => Some(5),
        pair if held.remove(&pair).is_some() => None,
        _ => Some(14),
    }
}

/// The number that add gives, None where it is taken.
fn added(held: &mut Held, pair: (usize, usize), w: usize) -> Option<u32> {
    let count = held.get(&pair).copied();
    match pair {
        (a, b) if a == b => Some(5),
        _ if w == 0 || w > 1000 => Some(18),
        _ if count.unwrap_or(0) + w > 1000 => Some(19),
        _ if count.is_none() && held.len() == 4096 => Some(11),
        pair => {
            *held.entry(pair).or_insert(0) += w;
            None
        }
    }
}

#[test]
fn edits_against_a_table() {
    for (seed, n) in [(1, 2), (2, 7), (3, 60), (4, 512)] {
        let mut random = Random(seed);
        let (mut list, mut held) = (List::new(n as u32).unwrap(), BTreeMap::new());
        holds(&mut list, &mut random, &held);
        for step in 0..12_000 {
            let (a, b) = (random.below(n), random.below(n));
            let mut pair = (a.min(b), a.max(b));
            if !held.is_empty() && random.once_in(4) {
                pair = *held.keys().nth(random.below(held.len())).unwrap();
            }
            // the first half mostly adds, the second mostly removes
            if random.once_in(8) == (step < 6_000) {
                let wanted = removed(&mut held, pair);
                assert_eq!(list.remove(pair.1 as u32, pair.0 as u32).err().map(Refusal::number), wanted);
            } else {
                let most = [2, 10, 100, 1002][random.below(4)];
                let w = random.below(most);
                let wanted = added(&mut held, pair, w);
                assert_eq!(list.add(pair.1 as u32, pair.0 as u32, w as u32).err().map(Refusal::number), wanted);
            }
            if step % 500 == 0 {
                holds(&mut list, &mut random, &held);
            }
        }
        for (a, b) in std::mem::take(&mut held).into_keys() {
            list.remove(a as u32, b as u32).unwrap();
        }
        holds(&mut list, &mut random, &held);
    }
}

#[test]
fn a_full_list() {
    let mut random = Random(5);
    let full = lists::uniform(&mut random, 512, 4096);
    let mut list = List::read(&files::scattered(&full, &mut random)).unwrap();
    let mut held: Held = full.pairs.iter().map(|&(a, b, w)| ((a, b), w)).collect();
    let (a, b, w) = full.pairs[2048];
    let (c, d) =
        (0..512).flat_map(|c| (c + 1..512).map(move |d| (c, d))).find(|pair| !held.contains_key(pair)).unwrap();
    assert_eq!(number(list.add(a as u32, b as u32, 1001)), 18);
    assert_eq!(number(list.add(c as u32, d as u32, 1000)), 11);
    if w < 1000 {
        list.add(a as u32, b as u32, 1000 - w as u32).unwrap();
    }
    assert_eq!(number(list.add(b as u32, a as u32, 1)), 19);
    held.insert((a, b), 1000);
    holds(&mut list, &mut random, &held);
    list.remove(a as u32, b as u32).unwrap();
    list.add(c as u32, d as u32, 77).unwrap();
    held.remove(&(a, b));
    held.insert((c, d), 77);
    holds(&mut list, &mut random, &held);
}
