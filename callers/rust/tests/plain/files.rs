//! Pair files, with lines `A,B,W` (document 02, item 4): a plain reader and writer, and a generator of such files, whole and damaged.
use super::{lists, Plain, Random};
use std::collections::BTreeMap;

/// A number of 1 to 4 digits, with no leading zero unless it is 0.
pub fn number(text: &str) -> Option<usize> {
    let plain = (1..=4).contains(&text.len()) && text.bytes().all(|c| c.is_ascii_digit());
    if plain && (text == "0" || !text.starts_with('0')) {
        text.parse().ok()
    } else {
        None
    }
}

/// In which order causes are given that hold at the same pair line.
pub const ORDER: [u32; 4] = [5, 4, 18, 10];

/// The file's N and pairs, for a list of so many records; or the refusal number.
pub fn read(bytes: &[u8], records: usize) -> Result<Plain, u32> {
    read_by(ORDER, bytes, records)
}

/// The same, by this order.
pub fn read_by(order: [u32; 4], bytes: &[u8], records: usize) -> Result<Plain, u32> {
    let mut rest = bytes;
    let mut line = |form: &str| -> Result<String, u32> {
        let end = rest.iter().position(|&c| c == b'\n').ok_or(1u32)?;
        let text = std::str::from_utf8(&rest[..end]).map_err(|_| 1u32)?;
        rest = &rest[end + 1..];
        text.strip_prefix(form).map(str::to_string).ok_or(1)
    };
    let n = number(&line("modules=")?).ok_or(1u32)?;
    if !(1..=512).contains(&n) {
        return Err(2);
    }
    let m = number(&line("pairs=")?).ok_or(1u32)?;
    if m > 4096 {
        return Err(3);
    }
    if m > records {
        return Err(11);
    }
    let mut named = BTreeMap::new();
    for _ in 0..m {
        let numbers: Option<Vec<usize>> = line("")?.split(',').map(number).collect();
        let Some(&[a, b, w]) = numbers.as_deref() else { return Err(1) };
        let ends = (a.min(b), a.max(b));
        let met = |number: &u32| match number {
            5 => a == b,
            4 => a >= n || b >= n,
            18 => !(1..=1000).contains(&w),
            _ => named.contains_key(&ends),
        };
        if let Some(number) = order.into_iter().find(met) {
            return Err(number);
        }
        named.insert(ends, w);
    }
    if !rest.is_empty() {
        return Err(6);
    }
    Ok(Plain { n, pairs: named.into_iter().map(|((a, b), w)| (a, b, w)).collect() })
}

/// The pair file of n modules and these pairs, in this order.
pub fn of(n: usize, pairs: &[(usize, usize, usize)]) -> Vec<u8> {
    let lines: String = pairs.iter().map(|(a, b, w)| format!("{a},{b},{w}\n")).collect();
    format!("modules={n}\npairs={}\n{lines}", pairs.len()).into_bytes()
}

/// The pair file of the list, its pair lines in a random order and each pair in either order.
pub fn scattered(list: &Plain, random: &mut Random) -> Vec<u8> {
    of(list.n, &list.scattered(random))
}

/// Lines that are wrong as first, as second, and as pair lines of most lists, with a bar between them.
const MODULES: &str = "modules=0|modules=513|modules=01|modules=|modules=9999|modules=10000|module=3|modules=3 ";
const PAIRS: &str = "pairs=4097|pairs=9999|pairs=10000|pairs=00|pairs=|pair=1|pairs=4096";
const LINES: &str = "3,3,1|9,9,1|0,600,1|0,1,1|1,0,1|0,1,7|1,0,1000|00,1,1|1,,1|+1,2,1| 1,2,1|1,2,1\r|600,600,1|9999,9999,1|pair=0,1|pair=0,1,1|0,1|1,0,|\
                     0,1,0|1,0,1001|0,1,9999|0,1,10000|0,1,01|0,1,001|0,1,0001|0,1,1,1|0,1,1,|0 1 1|0,1 1|0,1,+1|0,1,-1|0,1,1.0|0,0,0|600,0,0|9,9,1001||\
                     0,1,1002|0,1,2000|0,1,65537|0,1,00|0,1, 1|0,1,1 |0,1;1|1,0,0|0,1,1001|00,1,0|0,1,1000\r";

fn one_of(random: &mut Random, lines: &str) -> Vec<u8> {
    let count = lines.split('|').count();
    format!("{}\n", lines.split('|').nth(random.below(count)).unwrap()).into_bytes()
}

/// One number more, less, or otherwise spelled, on one pair line.
fn other_number(random: &mut Random, line: &[u8]) -> Vec<u8> {
    let text = String::from_utf8_lossy(line).trim_end().to_string();
    let mut words: Vec<String> = text.split(',').map(str::to_string).collect();
    let at = random.below(words.len());
    let others = ["0", "1", "2", "999", "1000", "1001", "1002", "4096", "9999", "10000", "01", "00", "", "512", "513"];
    words[at] = others[random.below(others.len())].to_string();
    format!("{}\n", words.join(",")).into_bytes()
}

/// A pair file, in two of three draws with something wrong somewhere.
pub fn any(random: &mut Random) -> Vec<u8> {
    let list = lists::any(random);
    let file = scattered(&list, random);
    match random.below(6) {
        0..2 => file,
        2..5 => damaged_line(random, &file),
        _ => damaged_byte(random, file),
    }
}

/// A line taken out, doubled, moved, cut, or a wrong one in its place or put in.
fn damaged_line(random: &mut Random, file: &[u8]) -> Vec<u8> {
    let mut lines: Vec<Vec<u8>> = file.split_inclusive(|&c| c == b'\n').map(<[u8]>::to_vec).collect();
    let (i, j) = (random.below(lines.len()), random.below(lines.len()));
    let pair = 2 + random.below((lines.len() - 2).max(1));
    match random.below(11) {
        0 => lines[0] = one_of(random, MODULES),
        1 => lines[1] = one_of(random, PAIRS),
        2..4 if pair < lines.len() => lines[pair] = one_of(random, LINES),
        4..6 if pair < lines.len() => lines[pair] = other_number(random, &lines[pair].clone()),
        6 => lines.swap(i, j),
        7 => drop(lines.remove(i)),
        8 => lines.insert(i, lines[j].clone()),
        9 => lines.last_mut().unwrap().truncate(random.below(8)),
        _ => lines.push(one_of(random, LINES)),
    }
    lines.concat()
}

/// The file cut, or a byte altered, put in or taken out.
fn damaged_byte(random: &mut Random, mut file: Vec<u8>) -> Vec<u8> {
    let (at, byte) = (random.below(file.len()), b"0123456789=,\n\r x\0\xff"[random.below(18)]);
    match random.below(4) {
        0 => file.truncate(at),
        1 => file[at] = byte,
        2 => file.insert(at, byte),
        _ => drop(file.remove(at)),
    }
    file
}
