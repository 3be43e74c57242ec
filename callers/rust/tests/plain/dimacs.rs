//! DIMACS edge files (document 02, item 1), which have no counts: a plain reader and writer, and a generator of such files, whole and damaged.
use super::files::number;
use super::{Plain, Random};
use std::collections::BTreeSet;

/// What a line is, its LF taken off.
enum Line {
    Comment,
    Problem(usize, usize),
    Edge(usize, usize),
    Other,
}

fn line(text: &[u8]) -> Line {
    let words: Vec<&str> = std::str::from_utf8(text).unwrap_or("").split(' ').collect();
    let both = |a, b| number(a).zip(number(b));
    match words[..] {
        _ if is_comment(text) => Line::Comment,
        ["p", "edge", n, m] => both(n, m).map_or(Line::Other, |(n, m)| Line::Problem(n, m)),
        ["e", a, b] => both(a, b).map_or(Line::Other, |(a, b)| Line::Edge(a, b)),
        _ => Line::Other,
    }
}

/// Whether a line, its LF taken off, is `c` alone, or `c`, a blank and anything.
pub fn is_comment(text: &[u8]) -> bool {
    text == b"c" || text.starts_with(b"c ")
}

/// The file's lines; all but the last end in LF, the last one where the file does.
pub fn lines_of(file: &[u8]) -> Vec<Vec<u8>> {
    file.split_inclusive(|&c| c == b'\n').map(<[u8]>::to_vec).collect()
}

/// In which order causes are given that hold at the same line; and the order of item 1, before item 2.
const ORDER: [u32; 8] = [16, 2, 3, 11, 17, 5, 4, 10];
pub const FOUR_FIRST: [u32; 8] = [16, 2, 3, 11, 17, 4, 5, 10];

/// The file's N and pairs, each with the count 1, for a list of so many records; or the refusal number. Each cause has lines at which its condition holds,
/// counted from 0, the file's end standing behind the last; the first such line decides, and of the causes there the first in `ORDER`.
pub fn read(file: &[u8], records: usize) -> Result<Plain, u32> {
    read_by(ORDER, file, records)
}

/// The same, by this order.
pub fn read_by(order: [u32; 8], file: &[u8], records: usize) -> Result<Plain, u32> {
    let (mut problems, mut edges, mut holds) = (vec![], vec![], vec![]);
    let lines = lines_of(file);
    for (at, text) in lines.iter().enumerate() {
        match text.strip_suffix(b"\n").map_or(Line::Other, line) {
            Line::Comment => {}
            Line::Problem(n, m) => problems.push((at, n, m)),
            Line::Edge(a, b) => edges.push((at, a, b)),
            Line::Other => holds.push((at, 16)),
        }
    }
    let end = lines.len();
    let Some(&(first, n, m)) = problems.first() else {
        return Err(16); // at the end, or at some line before it: no other cause can hold
    };
    holds.extend(problems[1..].iter().map(|&(at, ..)| (at, 16)));
    holds.extend(edges.iter().filter(|&&(at, ..)| at < first).map(|&(at, ..)| (at, 16)));
    let true_at =
        |at, causes: [(u32, bool); 3]| causes.into_iter().filter(|cause| cause.1).map(move |cause| (at, cause.0));
    holds.extend(true_at(first, [(2, !(1..=512).contains(&n)), (3, m > 4096), (11, m > records)]));
    holds.extend(edges.get(m).map(|&(at, ..)| (at, 17)));
    holds.extend((edges.len() < m).then_some((end, 17)));
    let known = |v| 1 <= v && v <= n;
    let mut pairs = BTreeSet::new();
    for (at, a, b) in edges {
        let again = !pairs.insert((a.min(b), a.max(b)));
        holds.extend(true_at(at, [(5, a == b), (4, !known(a) || !known(b)), (10, again)]));
    }
    match holds.iter().min_by_key(|(at, number)| (*at, order.iter().position(|x| x == number))) {
        Some((_, number)) => Err(*number),
        None => Ok(Plain { n, pairs: pairs.into_iter().map(|(a, b)| (a - 1, b - 1, 1)).collect() }),
    }
}

/// The list's file: no comments, no counts, the pairs in list order, the smaller module first.
pub fn write(list: &Plain) -> Vec<u8> {
    let edges: String = list.pairs.iter().map(|(a, b, _)| format!("e {} {}\n", a + 1, b + 1)).collect();
    format!("p edge {} {}\n{edges}", list.n, list.pairs.len()).into_bytes()
}

/// The file without its comments; a last line that lacks its LF is none.
pub fn without_comments(file: &[u8]) -> Vec<u8> {
    let kept = |text: &Vec<u8>| !text.strip_suffix(b"\n").is_some_and(is_comment);
    lines_of(file).into_iter().filter(kept).flatten().collect()
}

fn comment(random: &mut Random) -> Vec<u8> {
    let some: [&[u8]; 10] =
        [b"c", b"c ", b"c c", b"c p edge 2 1", b"c e 1 2", b"c \r", b"c \0", b"c \t ", b"c  two blanks", b"c \xff\xfe"];
    let mut text = match random.below(12) {
        kind @ 0..10 => some[kind].to_vec(),
        _ => {
            let length = random.below(60);
            let any = (0..length).map(|_| random.next() as u8).filter(|&c| c != b'\n');
            b"c ".iter().copied().chain(any).collect()
        }
    };
    text.push(b'\n');
    text
}

/// The list's lines: the `e` lines in a random order and each pair in either order, with comments anywhere: none, a few, or one for each line.
pub fn lines(list: &Plain, random: &mut Random) -> Vec<Vec<u8>> {
    let one_in = [usize::MAX, 8, 1][random.below(3)];
    let mut lines = vec![];
    let commented = |lines: &mut Vec<Vec<u8>>, random: &mut Random| {
        while random.once_in(one_in) {
            lines.push(comment(random));
            if one_in == 1 {
                break;
            }
        }
    };
    commented(&mut lines, random);
    lines.push(format!("p edge {} {}\n", list.n, list.pairs.len()).into_bytes());
    for (a, b, _) in list.scattered(random) {
        commented(&mut lines, random);
        lines.push(format!("e {} {}\n", a + 1, b + 1).into_bytes());
    }
    commented(&mut lines, random);
    lines
}

/// Lines that are wrong, or wrong in most places, with a bar between them.
const WRONG: &str = "|cx|c\t|c\r|C| c|cc x|p|p edge|p edge 3|p edge 3 |p edge 3 2 1|p col 3 2|p edges 3 2|P edge 3 2|p  edge 3 2|p edge 3 2\r|\
                     p edge 3 4097|p edge 513 0|p edge 3 2|e|e 1|e 1 |e 1 2 |e 1 2 3|e 1,2|e 1\t2|E 1 2|a 1 2|e 1 2\r|e +1 2|n 1 2";

fn wrong_line(random: &mut Random) -> Vec<u8> {
    let count = WRONG.split('|').count();
    format!("{}\n", WRONG.split('|').nth(random.below(count)).unwrap()).into_bytes()
}

/// A number's digits: in range or just outside, or spelled as it must not be.
fn digits(random: &mut Random, n: usize, m: usize) -> String {
    let value = [0, 1, 2, n - 1, n, n + 1, m.saturating_sub(1), m, m + 1, 512, 513, 4096, 4097, 9999][random.below(14)];
    match random.below(8) {
        0 => format!("0{value}"),
        1 => format!("{value:05}"),
        2 => format!("1{value:04}"),
        _ => format!("{value}"),
    }
}

/// One thing altered in the lines: a line, a number, or a byte.
pub fn damage(random: &mut Random, lines: &mut Vec<Vec<u8>>, list: &Plain) {
    match random.below(3) {
        0 => damage_line(random, lines),
        1 => damage_number(random, lines, list),
        _ => {
            let mut file = lines.concat();
            damage_byte(random, &mut file);
            *lines = lines_of(&file);
        }
    }
}

/// A line taken out, doubled, moved, or a wrong one put in.
fn damage_line(random: &mut Random, lines: &mut Vec<Vec<u8>>) {
    if lines.is_empty() {
        return;
    }
    let (i, j) = (random.below(lines.len()), random.below(lines.len()));
    match random.below(7) {
        0 => lines[i] = wrong_line(random),
        1 => lines.insert(i, wrong_line(random)),
        2 => lines.push(wrong_line(random)),
        3 => lines.swap(i, j),
        4 => drop(lines.remove(i)),
        5 => lines.insert(i, lines[j].clone()),
        _ => lines.push(lines[j].clone()),
    }
}

/// Other numbers on the `p` line, another on an `e` line, or a pair in the place of an `e` line: of one module, known or not, or one that the list has.
fn damage_number(random: &mut Random, lines: &mut [Vec<u8>], list: &Plain) {
    let (n, m) = (list.n, list.pairs.len());
    let first = lines.iter().position(|text| text.starts_with(b"p"));
    let edges: Vec<usize> = (0..lines.len()).filter(|&i| lines[i].starts_with(b"e")).collect();
    let (one, two, v) = (digits(random, n, m), digits(random, n, m), 1 + random.below(n));
    let kind = random.below(8);
    if let (0..3, Some(at)) = (kind, first) {
        let others = [format!("{one} {m}"), format!("{n} {one}"), format!("{one} {two}")];
        lines[at] = format!("p edge {}\n", others[kind]).into();
    } else if !edges.is_empty() && m > 0 {
        let (a, b, _) = list.pairs[random.below(m)];
        let text = match kind {
            3 => format!("e {v} {v}\n"),
            4 => format!("e {} {}\n", b + 1, a + 1),
            5 => format!("e {one} {v}\n"),
            6 => format!("e {one} {one}\n"),
            _ => format!("e {v} {one}\n"),
        };
        lines[edges[random.below(edges.len())]] = text.into();
    }
}

/// One byte altered, put in, taken out or doubled, or the file cut there.
fn damage_byte(random: &mut Random, file: &mut Vec<u8>) {
    if file.is_empty() {
        return;
    }
    let at = random.below(file.len());
    let some = b"0123456789 \n\r\tcepdgx\0\xff";
    let byte = some[random.below(some.len())];
    match random.below(5) {
        0 => file[at] = byte,
        1 => file.insert(at, byte),
        2 => drop(file.remove(at)),
        3 => file.insert(at, file[at]),
        _ => file.truncate(at),
    }
}

/// The numbers of a file without comments, in its order.
pub fn numbers(file: &[u8]) -> Vec<usize> {
    let words = file.split(|&c| c == b' ' || c == b'\n');
    words.filter_map(|word| std::str::from_utf8(word).ok().and_then(number)).collect()
}
