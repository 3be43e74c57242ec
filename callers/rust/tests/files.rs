//! Pair files (document 02, item 4: lines `A,B,W`): files whole and damaged, read by the library and by the plain reader, with every entry of every buffer
//! compared; files tried by hand; full files.
mod plain;

use kandurzo::ffi::{self, Changed};
use kandurzo::{Head, Pair};
use plain::buffers::{from_4_to_5, in_front, pairs, work, work_after, Met, WORK};
use plain::{files, lists, Random};

/// Reads the file into a list of that length, with that work buffer, both full of anything; answer and buffers must be as the plain reader says.
fn read(random: &mut Random, file: &[u8], length: usize, mut work: Vec<u32>) -> u32 {
    let before = pairs(random, length);
    let answer = if work.len() < WORK { Err(12) } else { files::read(file, length) };
    let (number, head, records) = match answer {
        Err(number) => (number, Head::default(), before.clone()),
        Ok(list) => (0, list.head(), in_front(&list.records(), &before)),
    };
    let (mut list, cleared) = (before, work_after(number, &work));
    let shown = String::from_utf8_lossy(&file[..file.len().min(2000)]);
    assert_eq!(ffi::read(file, &mut list, &mut work), Changed { number, head }, "{shown:?} into {length} records");
    assert!(list == records, "the list after {number} of {shown:?}");
    assert!(work == cleared, "the work buffer after {number} of {shown:?}");
    number
}

#[test]
fn generated_files() {
    let (mut random, mut met, mut changed) = (Random(3), Met::default(), 0);
    for _ in 0..40_000 {
        let file = files::any(&mut random);
        let named = files::read(&file, 4096).map_or(10, |list| list.pairs.len());
        let length = random.length(named);
        let work = work(&mut random);
        let number = read(&mut random, &file, length, work);
        met.see(number);
        let old = files::read_by([4, 5, 18, 10], &file, length);
        changed += u32::from(number != 12 && from_4_to_5(old, &files::read(&file, length)));
    }
    println!("{met}; from 4 to 5: {changed}");
    met.are_each(100, &[0, 1, 2, 3, 4, 5, 6, 10, 11, 12, 18]);
    assert!(changed >= 50, "from 4 to 5 {changed} times");
}

/// Small files: N and M at their least, one to four digits, counts from 1 to 1,000; the last lacks most of its lines.
const SMALL: [&[u8]; 5] = [
    b"modules=1\npairs=0\n",
    b"modules=3\npairs=2\n0,1,1\n2,1,1000\n",
    b"modules=12\npairs=3\n0,11,9\n10,2,10\n3,4,100\n",
    b"modules=512\npairs=2\n511,0,999\n99,510,8\n",
    b"modules=92\npairs=409\n0,91,1\n90,1,2\n",
];

/// Each byte of a small file altered, and before each place one put in, by any of the bytes that a file is made of and some others; each taken out and
/// doubled; the file cut there, or what stands before taken off.
#[test]
fn every_byte() {
    let (mut random, mut met) = (Random(41), Met::default());
    let mut see =
        |file: &[u8]| [4096, 1].iter().for_each(|&length| met.see(read(&mut random, file, length, vec![7; WORK + 1])));
    for file in SMALL {
        for at in 0..=file.len() {
            let (front, back) = file.split_at(at);
            see(front);
            see(back);
            for byte in *b"0123456789=,\n\r \tmpairs-+\0\x80\xff" {
                see(&[front, &[byte], back].concat());
                if let Some((_, rest)) = back.split_first() {
                    see(&[front, &[byte], rest].concat());
                }
            }
            if let Some((byte, rest)) = back.split_first() {
                see(&[front, rest].concat());
                see(&[front, &[*byte], back].concat());
            }
        }
    }
    println!("{met}");
    met.are_each(2, &[0, 1, 2, 3, 4, 5, 6, 10, 11, 18]);
}

/// Each number of a small file put otherwise; each line put before each other one; every two lines exchanged.
#[test]
fn every_number_and_line() {
    let (mut random, mut met) = (Random(42), Met::default());
    let mut see =
        |file: &[u8]| [4096, 1].iter().for_each(|&length| met.see(read(&mut random, file, length, vec![7; WORK])));
    let others = "0 00 1 01 2 3 9 10 11 12 012 99 510 511 512 513 0512 999 1000 1001 01000 1002 4095 4096 4097 9999 09999 10000 10001 65537 66536 \
                  4294967297 18446744073709551617 -1 +1 1.0 0x1 a";
    for file in SMALL {
        let words: Vec<&[u8]> = file.split_inclusive(|&c| b"=,\n".contains(&c)).collect();
        for (i, word) in words.iter().enumerate().filter(|(_, word)| word[0].is_ascii_digit()) {
            for other in others.split_ascii_whitespace().chain([""]) {
                let new = [other.as_bytes(), &word[word.len() - 1..]].concat();
                let mut altered = words.clone();
                altered[i] = &new;
                see(&altered.concat());
            }
        }
        let lines: Vec<&[u8]> = file.split_inclusive(|&c| c == b'\n').collect();
        for (i, j) in (0..lines.len()).flat_map(|i| (0..lines.len()).map(move |j| (i, j))) {
            let (mut doubled, mut swapped, mut less) = (lines.clone(), lines.clone(), lines.clone());
            doubled.insert(j, lines[i]);
            swapped.swap(i, j);
            less.remove(i);
            [doubled, swapped, less].iter().for_each(|lines| see(&lines.concat()));
        }
    }
    println!("{met}");
    met.are_each(4, &[0, 1, 2, 3, 4, 5, 6, 10, 11, 18]);
}

/// The number by hand for pair lines under `modules=4` and as many `pairs=` as there are lines.
fn given(lines: &str, number: u32) {
    let file = format!("modules=4\npairs={}\n{lines}", lines.matches('\n').count());
    assert_eq!(read(&mut Random(43), file.as_bytes(), 4096, vec![7; WORK]), number, "{lines:?}");
}

#[test]
fn counts_by_hand() {
    for w in [1, 2, 9, 10, 99, 100, 999, 1000] {
        given(&format!("0,1,{w}\n"), 0);
        given(&format!("3,0,{w}\n1,2,{w}\n"), 0);
    }
    for w in [0, 1001, 1002, 1010, 1100, 2000, 9999] {
        given(&format!("0,1,{w}\n"), 18);
    }
    // five digits and more, a leading zero, no number, no count, a count too many, the form of document 01, another sign, no LF
    for w in [
        "10000",
        "01000",
        "00001",
        "99999",
        "65537",
        "4294967297",
        "01",
        "00",
        "001",
        "",
        "x",
        "1x",
        "+1",
        "-1",
        " 1",
        "1 ",
        "1.0",
        "1\r",
        "1,",
        "1,1",
    ] {
        given(&format!("0,1,{w}\n"), 1);
    }
    for line in [
        "0,1\n",
        "pair=0,1\n",
        "pair=0,1,1\n",
        "0,1;1\n",
        "0 1 1\n",
        ",0,1,1\n",
        "0,,1\n",
        ",1,1\n",
        "\n",
        "1\n",
        "0, 1,1\n",
        "0,1,1\n0,2\n",
    ] {
        given(line, 1);
    }
    assert_eq!(read(&mut Random(43), b"modules=4\npairs=1\n0,1,1", 4096, vec![7; WORK]), 1);
    assert_eq!(read(&mut Random(43), b"modules=4\npairs=1\n0,1,1\n\n", 4096, vec![7; WORK]), 6);
    assert_eq!(read(&mut Random(43), b"modules=4\npairs=0\n0,1,1\n", 4096, vec![7; WORK]), 6);
}

/// On a pair line 1, 5, 4, 18, 10: each pair of causes, the earlier one is given.
#[test]
fn order_by_hand() {
    let first = "0,1,5\n";
    for (line, number) in [
        ("1,1,00\n", 1),
        ("9,9,0x\n", 1),
        ("0,4,01\n", 1),
        ("0,1,10000\n", 1),
        ("2,2,0\n", 5),
        ("4,4,1001\n", 5),
        ("9999,9999,9999\n", 5),
        ("4,4,1\n", 5),
        ("0,4,0\n", 4),
        ("4,0,1001\n", 4),
        ("5,4,9999\n", 4),
        ("0,1,0\n", 18),
        ("1,0,1001\n", 18),
        ("0,1,9999\n", 18),
        ("0,1,1\n", 10),
        ("1,0,5\n", 10),
        ("0,1,1000\n", 10),
        ("1,0,996\n", 10),
        ("0,2,5\n", 0),
    ] {
        given(&format!("{first}{line}"), number);
        given(&format!("{first}2,3,1\n{line}"), number);
        // the first wrong line decides, whatever comes after it
        given(&format!("{first}{line}x\n"), if number == 0 { 1 } else { number });
        given(&format!("{first}{line}3,2,0\n"), if number == 0 { 18 } else { number });
    }
    let file = b"modules=4\npairs=1\n0,1,0\n";
    assert_eq!(read(&mut Random(44), file, 0, vec![7; WORK]), 11);
    assert_eq!(read(&mut Random(44), file, 1, vec![7; WORK - 1]), 12);
    assert_eq!(read(&mut Random(44), b"modules=0\npairs=1\n0,1,0\n", 1, vec![7; WORK]), 2);
}

/// The longest files: 4,096 lines with modules of three digits and the count 1,000 are less than 65,536 bytes; one line, or one byte, more or less is refused.
#[test]
fn full_files() {
    let mut random = Random(45);
    let longest: Vec<_> = (100..512).flat_map(|a| (a + 1..512).map(move |b| (a, b, 1000))).take(4096).collect();
    let file = files::of(512, &longest);
    assert_eq!(file.len(), 53_271);
    assert_eq!(read(&mut random, &file, 4096, vec![7; WORK]), 0);
    assert_eq!(read(&mut random, &file[..file.len() - 1], 4096, vec![7; WORK]), 1);
    assert_eq!(read(&mut random, &[&file[..], b"\n"].concat(), 4096, vec![7; WORK]), 6);
    let cut = [&file[..file.len() - 5], b"1001\n"].concat();
    assert_eq!(read(&mut random, &cut, 4096, vec![7; WORK]), 18);
    let last = file.len() - 13;
    assert_eq!(read(&mut random, &[&file[..last], &file[last - 13..last]].concat(), 4096, vec![7; WORK]), 10);
    for n in [92, 128, 512] {
        for _ in 0..20 {
            let list = lists::uniform(&mut random, n, 4096);
            let file = files::scattered(&list, &mut random);
            assert!(file.len() <= 53_271);
            assert_eq!(read(&mut random, &file, 4096, vec![7; WORK]), 0);
            assert_eq!(read(&mut random, &file, 4095, vec![7; WORK]), 11);
        }
    }
}

/// A list is the one that its file names, whatever the order of the lines; and the file of the list in list order is read as the same list.
#[test]
fn files_and_lists() {
    let mut random = Random(46);
    for _ in 0..2_000 {
        let list = lists::any(&mut random);
        let mut records = vec![Pair::default(); list.pairs.len()];
        for file in [files::scattered(&list, &mut random), files::of(list.n, &list.pairs)] {
            records.fill(Pair { a: 9, b: 9, w: 9 });
            let answer = ffi::read(&file, &mut records, &mut vec![7; WORK]);
            assert_eq!((answer, &records), (Changed { number: 0, head: list.head() }, &list.records()));
        }
    }
}
