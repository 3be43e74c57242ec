//! DIMACS edge files: files whole and damaged, read by the library and by the plain reader, with every entry of every buffer compared; files tried by
//! hand; lists written, and what is written read again. A file has no stop counts: each pair that is read counts 1.
mod plain;

use kandurzo::ffi::{self, Changed, Written};
use kandurzo::{Head, Pair, TEXT};
use plain::buffers::{bytes, from_4_to_5, in_front, pairs, work, work_after, Met, WORK};
use plain::{dimacs, lists, Plain, Random};

/// Reads the file into a list of that length, with that work buffer, both full of anything; answer and buffers must be as the plain reader says.
fn read(random: &mut Random, file: &[u8], length: usize, mut work: Vec<u32>) -> u32 {
    let before = pairs(random, length);
    let answer = if work.len() < WORK { Err(12) } else { dimacs::read(file, length) };
    let (number, head, records) = match answer {
        Err(number) => (number, Head::default(), before.clone()),
        Ok(list) => (0, list.head(), in_front(&list.records(), &before)),
    };
    let (mut list, words) = (before, work_after(number, &work));
    let shown = String::from_utf8_lossy(&file[..file.len().min(2000)]);
    assert_eq!(
        ffi::read_dimacs(file, &mut list, &mut work),
        Changed { number, head },
        "{shown:?} into {length} records"
    );
    assert!(list == records, "the list after {number} of {shown:?}");
    assert!(work == words, "the work buffer after {number} of {shown:?}");
    number
}

/// A generated file, in three of four draws with up to three things altered, and how many pairs it had.
fn file(random: &mut Random) -> (Vec<u8>, usize) {
    let list = lists::any(random);
    let mut lines = dimacs::lines(&list, random);
    (0..random.below(4)).for_each(|_| dimacs::damage(random, &mut lines, &list));
    (lines.concat(), list.pairs.len())
}

#[test]
fn generated_files() {
    let (mut random, mut met, mut changed) = (Random(11), Met::default(), 0);
    for _ in 0..40_000 {
        let (file, m) = file(&mut random);
        let length = if random.once_in(2) { random.length(m) } else { 4096 };
        let work = work(&mut random);
        let number = read(&mut random, &file, length, work);
        met.see(number);
        let old = dimacs::read_by(dimacs::FOUR_FIRST, &file, length);
        changed += u32::from(number != 12 && from_4_to_5(old, &dimacs::read(&file, length)));
    }
    println!("{met}; from 4 to 5: {changed}");
    met.are_each(100, &[0, 2, 3, 4, 5, 10, 11, 12, 16, 17]);
    assert!(changed >= 100, "from 4 to 5 {changed} times");
}

/// Small files: N and M at their least, one and two digits, three digits; with comments and without; the last lacks most of its lines.
const SMALL: [&[u8]; 6] = [
    b"p edge 1 0\n",
    b"p edge 3 2\ne 1 2\ne 3 2\n",
    b"c\np edge 12 3\nc x\ne 1 12\ne 10 2\nc \ne 3 4\n",
    b"c \np edge 512 2\ne 512 1\nc e 1 2\ne 99 511\nc\n",
    b"p edge 5 7\ne 1 2\ne 1 3\ne 1 4\ne 2 3\ne 2 4\ne 3 4\ne 4 5\n",
    b"p edge 92 409\ne 1 92\ne 91 2\n",
];

/// Reads a file into a list that is long enough, and into one of two records.
fn read_small(random: &mut Random, met: &mut Met, file: &[u8]) {
    for length in [4096, 2] {
        met.see(read(random, file, length, vec![7; WORK + 1]));
    }
}

/// Each byte of a small file altered, and before each place one put in, by any of the bytes that a file is made of and some others; each taken out and
/// doubled; the file cut there, or what stands before taken off.
#[test]
fn every_byte() {
    let (mut random, mut met) = (Random(12), Met::default());
    for file in SMALL {
        for at in 0..=file.len() {
            let (front, back) = file.split_at(at);
            read_small(&mut random, &mut met, front);
            read_small(&mut random, &mut met, back);
            for byte in *b"0123456789 \n\r\tcepdg,-+\0\x80\xff" {
                read_small(&mut random, &mut met, &[front, &[byte], back].concat());
                if let Some((_, rest)) = back.split_first() {
                    read_small(&mut random, &mut met, &[front, &[byte], rest].concat());
                }
            }
            if let Some((byte, rest)) = back.split_first() {
                read_small(&mut random, &mut met, &[front, rest].concat());
                read_small(&mut random, &mut met, &[front, &[*byte], back].concat());
            }
        }
    }
    println!("{met}");
    met.are_each(20, &[0, 2, 3, 4, 5, 10, 11, 16, 17]);
}

/// Each line of a small file put before each other one, in its own place too; taken out; every two exchanged.
#[test]
fn every_line() {
    let (mut random, mut met) = (Random(13), Met::default());
    for file in SMALL {
        let lines = dimacs::lines_of(file);
        for i in 0..lines.len() {
            let mut fewer = lines.clone();
            fewer.remove(i);
            read_small(&mut random, &mut met, &fewer.concat());
            for j in 0..lines.len() {
                let (mut moved, mut doubled, mut swapped) = (fewer.clone(), lines.clone(), lines.clone());
                moved.insert(j, lines[i].clone());
                doubled.insert(j, lines[i].clone());
                swapped.swap(i, j);
                [moved, doubled, swapped].iter().for_each(|lines| read_small(&mut random, &mut met, &lines.concat()));
            }
        }
    }
    println!("{met}");
    met.are_each(10, &[0, 10, 11, 16, 17]);
}

/// Each number of a small file put otherwise.
#[test]
fn every_number() {
    let (mut random, mut met) = (Random(14), Met::default());
    let others = "0 00 1 01 2 3 4 5 6 7 8 9 10 11 12 13 012 99 511 512 513 0512 999 1000 4095 4096 4097 9999 09999 10000 99999 65537 4294967297 \
                  18446744073709551617 -1 +1 1.0 0x1 a";
    for file in SMALL {
        let words: Vec<&[u8]> = file.split_inclusive(|&c| c == b' ' || c == b'\n').collect();
        for (i, word) in words.iter().enumerate().filter(|(_, word)| word[0].is_ascii_digit()) {
            for other in others.split_ascii_whitespace().chain([""]) {
                let new = [other.as_bytes(), &word[word.len() - 1..]].concat();
                let mut altered = words.clone();
                altered[i] = &new;
                read_small(&mut random, &mut met, &altered.concat());
            }
        }
    }
    println!("{met}");
    met.are_each(10, &[0, 2, 3, 4, 5, 10, 11, 16, 17]);
}

/// The number by hand for a file read into that many records, by the library and by the plain reader.
fn given(length: usize, files: &[(&[u8], u32)]) {
    for &(file, number) in files {
        assert_eq!(read(&mut Random(15), file, length, vec![7; WORK]), number, "{:?}", String::from_utf8_lossy(file));
    }
}

#[test]
fn comments_by_hand() {
    given(
        4096,
        &[
            (b"p edge 1 0\n", 0),
            (b"c\np edge 1 0\n", 0),
            (b"p edge 1 0\nc\n", 0),
            (b"c \nc\nc  \nc c\np edge 2 1\nc p edge 2 1\ne 1 2\nc e 1 2\nc\n", 0),
            (b"c \r\np edge 1 0\n", 0),
            (b"c \0\xff\t\r\np edge 1 0\n", 0),
            (b"cx\np edge 1 0\n", 16),
            (b"cc\np edge 1 0\n", 16),
            (b"c\r\np edge 1 0\n", 16),
            (b"c\tx\np edge 1 0\n", 16),
            (b"c\0\np edge 1 0\n", 16),
            (b" c\np edge 1 0\n", 16),
            (b"C\np edge 1 0\n", 16),
            (b"p edge 1 0\nc", 16),
            (b"p edge 1 0\nc x", 16),
            (b"c\nc x\n", 16),
            (b"c", 16),
        ],
    );
}

#[test]
fn forms_by_hand() {
    given(
        4096,
        &[
            (b"", 16),
            (b"\n", 16),
            (b"\np edge 1 0\n", 16),
            (b"p edge 1 0\n\n", 16),
            (b"p edge 1 0", 16),
            (b"p col 2 0\n", 16),
            (b"p edge 2\n", 16),
            (b"p edge 2 0 \n", 16),
            (b"p edge 2 0\r\n", 16),
            (b"p  edge 2 0\n", 16),
            (b"p edge 2  0\n", 16),
            (b"p\tedge\t2\t0\n", 16),
            (b"p edge 02 0\n", 16),
            (b"p edge 2 00\n", 16),
            (b"p edge 10000 0\n", 16),
            (b"p edge 2 10000\n", 16),
            (b"p edge 2 0\np edge 2 0\n", 16),
            (b"e 1 2\np edge 2 1\n", 16),
            (b"e 1 2\n", 16),
            (b"p edge 2 1\ne 1 2", 16),
            (b"p edge 2 1\ne 1 2\r\n", 16),
            (b"p edge 2 1\ne 1  2\n", 16),
            (b"p edge 2 1\ne 1\t2\n", 16),
            (b"p edge 2 1\ne 01 2\n", 16),
            (b"p edge 2 1\ne 1 00002\n", 16),
            (b"p edge 2 1\ne 1\n", 16),
            (b"p edge 2 1\na 1 2\n", 16),
            (b"modules=2\npairs=0\n", 16),
        ],
    );
}

#[test]
fn order_by_hand() {
    given(
        4096,
        &[
            (b"p edge 0 9999\n", 2),
            (b"p edge 513 4097\nx", 2),
            (b"p edge 512 4097\nx\n", 3),
            (b"p edge 512 0\n", 0),
            (b"p edge 9999 0\n", 2),
            (b"p edge 2 0\ne 0 0\n", 17),
            (b"p edge 2 0\ne 1 x\n", 16),
            (b"p edge 2 1\ne 1 2\ne 2 1\n", 17),
            (b"p edge 2 1\ne 1 2\nc\ne 3 3\nx\n", 17),
            (b"p edge 2 1\ne 1 2\nx\ne 1 2\n", 16),
            (b"p edge 2 1\nc\n", 17),
            (b"p edge 2 1\n", 17),
            (b"p edge 2 1\nc", 16),
            (b"p edge 3 3\ne 1 2\ne 2 3\n", 17),
            (b"p edge 3 3\ne 1 2\ne 2 3\np edge 3 3\n", 16),
            (b"p edge 2 1\ne 0 1\n", 4),
            (b"p edge 2 1\ne 1 3\n", 4),
            (b"p edge 2 1\ne 3 3\n", 5),
            (b"p edge 2 1\ne 0 0\n", 5),
            (b"p edge 2 2\ne 2 2\ne 1 3\n", 5),
            (b"p edge 2 2\ne 1 2\ne 2 1\n", 10),
            (b"p edge 2 2\ne 1 2\ne 1 2\n", 10),
            (b"p edge 2 3\ne 1 2\ne 1 2\nx\n", 10),
        ],
    );
    given(0, &[(b"p edge 2 4097\n", 3), (b"p edge 2 1\n", 11), (b"p edge 0 1\n", 2), (b"p edge 2 0\n", 0)]);
    given(1, &[(b"p edge 2 1\ne 2 1\n", 0), (b"p edge 3 2\ne 2 1\ne 2 2\n", 11), (b"p edge 3 2 \n", 16)]);
    for file in [&b""[..], b"p edge 0 0\n", b"x\n", b"p edge 2 1\ne 1 2\n"] {
        assert_eq!(read(&mut Random(16), file, 0, vec![7; WORK - 1]), 12);
        assert_eq!(read(&mut Random(16), file, 0, vec![]), 12);
    }
}

/// Files longer than any that is written: long comments, many comments, and full lists with a comment for each line.
#[test]
fn long_files() {
    let mut random = Random(17);
    let long = [&b"c "[..], &vec![b'e'; 100_000], b"\n"].concat();
    let many = b"c\n".repeat(70_000);
    for comments in [long, many] {
        let file = [&comments[..], b"p edge 2 1\n", &comments, b"e 2 1\n", &comments].concat();
        assert_eq!(read(&mut random, &file, 1, vec![7; WORK]), 0);
        assert_eq!(read(&mut random, &file[..file.len() - 1], 1, vec![7; WORK]), 16);
    }
    for n in [92, 128, 512] {
        let list = lists::uniform(&mut random, n, 4096);
        for _ in 0..20 {
            let mut lines = dimacs::lines(&list, &mut random);
            assert_eq!(read(&mut random, &lines.concat(), 4096, vec![7; WORK]), 0);
            let longer = [lines.concat(), b"e 1 2\n".to_vec()].concat();
            assert_eq!(read(&mut random, &longer, 4096, vec![7; WORK]), 17);
            lines.remove(lines.iter().position(|text| text.starts_with(b"e")).unwrap());
            assert_eq!(read(&mut random, &lines.concat(), 4096, vec![7; WORK]), 17);
        }
    }
}

#[test]
fn write() {
    let (mut random, mut met) = (Random(18), Met::default());
    for _ in 0..8_000 {
        let drawn = lists::any(&mut random);
        let (head, list) = lists::lent(&mut random, &drawn);
        let length = random.length(TEXT);
        let mut text = bytes(&mut random, length);
        let number = if !plain::agree(head, &list) { 13 } else { 12 * (length < TEXT) as u32 };
        let file = if number == 0 { dimacs::write(&Plain::of(head, &list)) } else { vec![] };
        let after = in_front(&file, &text);
        let answer = ffi::write_dimacs(head, &list, &mut text);
        assert_eq!(answer, Written { number, length: file.len() as u32 });
        assert!(text == after, "the text after {number}");
        met.see(number);
    }
    println!("{met}");
    met.are_each(100, &[0, 12, 13]);
}

/// 13 comes before 12, an empty text is short and so is one of 65,535 bytes, and the longest file there is has room.
#[test]
fn writes_by_hand() {
    let list = [Pair { a: 0, b: 1, w: 1 }, Pair { a: 0, b: 511, w: 1000 }, Pair { a: 7, b: 8, w: 12 }];
    let (n, m) = (512, 3);
    assert_eq!(ffi::write_dimacs(Head { n: 511, m }, &list, &mut []), Written { number: 13, length: 0 });
    assert_eq!(ffi::write_dimacs(Head { n, m }, &list, &mut []), Written { number: 12, length: 0 });
    let mut text = vec![b'x'; TEXT];
    assert_eq!(ffi::write_dimacs(Head { n, m }, &list, &mut text[1..]), Written { number: 12, length: 0 });
    assert!(text == [b'x'; TEXT]);
    for (m, wanted) in [(0, &b"p edge 512 0\nx"[..]), (3, b"p edge 512 3\ne 1 2\ne 1 512\ne 8 9\nx")] {
        text.fill(b'x');
        let answer = ffi::write_dimacs(Head { n, m }, &list, &mut text);
        assert_eq!(answer, Written { number: 0, length: wanted.len() as u32 - 1 });
        assert_eq!(&text[..wanted.len()], wanted);
    }
    let longest: Vec<Pair> =
        (99..512).flat_map(|a| (a + 1..512).map(move |b| Pair { a, b, w: 1 })).take(4096).collect();
    let (head, length) = (Head { n, m: 4096 }, 16 + 4096 * 10);
    assert_eq!(ffi::write_dimacs(head, &longest, &mut text), Written { number: 0, length: length as u32 });
    assert!(text[..length] == dimacs::write(&Plain::of(head, &longest)));
    assert_eq!(read_in(&text[..length]), (Changed { number: 0, head }, longest));
}

/// Number, head and list of a file.
fn read_in(file: &[u8]) -> (Changed, Vec<Pair>) {
    let mut list = vec![Pair::default(); 4096];
    let answer = ffi::read_dimacs(file, &mut list, &mut vec![7; WORK]);
    (answer, list)
}

fn written(head: Head, list: &[Pair]) -> Vec<u8> {
    let mut text = vec![0; TEXT];
    let answer = ffi::write_dimacs(head, list, &mut text);
    assert_eq!(answer.number, 0);
    text.truncate(answer.length as usize);
    text
}

/// What is written of a list says nothing of its counts: read again it gives the same pairs with the count 1, which is the same list if its counts are 1.
#[test]
fn written_and_read_is_the_same_list_of_ones() {
    let (mut random, mut same) = (Random(19), 0);
    for _ in 0..4_000 {
        let list = lists::any(&mut random);
        let (text, ones) = (written(list.head(), &list.records()), list.ones().records());
        assert_eq!(written(list.head(), &ones), text);
        let (answer, records) = read_in(&text);
        assert_eq!(answer, Changed { number: 0, head: list.head() });
        assert_eq!(records, in_front(&ones, &[Pair::default(); 4096]));
        assert_eq!(written(answer.head, &records), text);
        same += u32::from(list.records() == ones);
    }
    assert!((1_000..3_500).contains(&same), "{same} lists of ones");
}

/// An accepted file is rewritten byte for byte exactly if it has no comments and its pairs are in list order, smaller module first.
#[test]
fn accepted_and_written() {
    let (mut random, mut same, mut other) = (Random(20), 0, 0);
    for _ in 0..20_000 {
        let (mut file, _) = file(&mut random);
        if random.once_in(2) {
            file = dimacs::read(&file, 4096).map_or(file, |list| dimacs::write(&list));
        }
        let (answer, records) = read_in(&file);
        if answer.number == 0 {
            let ends: Vec<usize> = dimacs::numbers(&dimacs::without_comments(&file)).split_off(2);
            let ends: Vec<(usize, usize)> = ends.chunks(2).map(|ends| (ends[0], ends[1])).collect();
            let bare = dimacs::without_comments(&file) == file;
            let is_written = bare && ends.iter().all(|(a, b)| a < b) && ends.is_sorted();
            assert_eq!(written(answer.head, &records) == file, is_written, "{:?}", String::from_utf8_lossy(&file));
            *if is_written { &mut same } else { &mut other } += 1;
        }
    }
    println!("rewritten as they were: {same}; otherwise: {other}");
    assert!(same > 1000 && other > 1000);
}

/// Comments taken out of a file, whole or damaged, change neither number nor list.
#[test]
fn comments_count_for_nothing() {
    let (mut random, mut met) = (Random(21), Met::default());
    for _ in 0..20_000 {
        let (file, _) = file(&mut random);
        let bare = dimacs::without_comments(&file);
        if bare != file {
            let answer = read_in(&file);
            assert_eq!(read_in(&bare), answer, "{:?}", String::from_utf8_lossy(&file));
            met.see(answer.0.number);
        }
    }
    println!("{met}");
    met.are_each(50, &[0, 2, 3, 4, 5, 10, 16, 17]);
}
