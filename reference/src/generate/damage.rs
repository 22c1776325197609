//! Damage to the text of a harbour file.

use crate::file::MOST_BYTES;
use crate::random::Random;

const LINE_FEED: u8 = b'\n';

/// A copy of the text with one to three damages by the seed. Some of them leave
/// the file sound.
pub fn damage(seed: u64, text: &[u8]) -> Vec<u8> {
    let mut random = Random::new(seed ^ 0x6461_6D61_6765);
    let mut text = text.to_vec();
    let times = random.pick(&[1, 1, 1, 1, 2, 3]);
    for _ in 0..times {
        text = match random.below(10) {
            0..=2 => damage_bytes(&mut random, text),
            3..=5 => damage_lines(&mut random, text),
            6..=7 => damage_words(&mut random, text),
            _ => damage_ends(&mut random, text),
        };
    }
    text
}

/// A file of exactly the given length (when it is longer than the text): the
/// text and then more lines, spaces or the like.
pub fn lengthened(random: &mut Random, text: &[u8], length: usize) -> Vec<u8> {
    let mut long = text.to_vec();
    let more: &[u8] = random.pick(&[
        b"(query 0 0 0 0)\n".as_slice(),
        b"(entry 0 0)\n",
        b"\n",
        b" ",
        b"0",
    ]);
    while long.len() < length {
        long.extend_from_slice(more);
    }
    long.truncate(length.max(text.len()));
    long
}

fn damage_bytes(random: &mut Random, mut text: Vec<u8>) -> Vec<u8> {
    if text.is_empty() {
        return text;
    }
    let at = random.below(text.len());
    match random.below(6) {
        0 => text[at] ^= 1 << random.below(8),
        1 => {
            text.remove(at);
        }
        2 => text.insert(at, text[at]),
        3 => text[at] = random.pick(b"0123456789() \n\r\t-+x\0\xff"),
        4 => text.insert(at, random.pick(b"0123456789() \n\r\t-+x\0\xff")),
        _ => text.truncate(at),
    }
    text
}

fn damage_lines(random: &mut Random, text: Vec<u8>) -> Vec<u8> {
    let mut lines: Vec<Vec<u8>> = text
        .split_inclusive(|&b| b == LINE_FEED)
        .map(<[u8]>::to_vec)
        .collect();
    if lines.is_empty() {
        return text;
    }
    let at = random.below(lines.len());
    let other = random.below(lines.len());
    match random.below(10) {
        0 => lines.swap(at, other),
        1 => lines.insert(at, lines[at].clone()),
        2 => {
            lines.remove(at);
        }
        3 => lines.insert(at, vec![LINE_FEED]),
        4 => lines.insert(other, lines[0].clone()),
        5 => {
            let line = lines.remove(at);
            lines.push(line);
        }
        6 => lines.truncate(at),
        7 => {
            let line = lines[at].clone();
            let times = random.pick(&[31, 33, 63, 65, 255, 257, 513]);
            (0..times).for_each(|_| lines.insert(at, line.clone()));
        }
        8 => {
            let place = random.pick(&[at, lines.len()]);
            lines.insert(place, b"(kind 1)\n".to_vec());
        }
        _ => lines.insert(at, b"(note 1 2 3)\n".to_vec()),
    }
    lines.concat()
}

/// Changes around the numbers and the words.
fn damage_words(random: &mut Random, text: Vec<u8>) -> Vec<u8> {
    let spaces: Vec<usize> = (0..text.len()).filter(|&i| text[i] == b' ').collect();
    if spaces.is_empty() {
        return text;
    }
    let at = random.pick(&spaces);
    let end = (at + 1..text.len())
        .find(|&i| !text[i].is_ascii_digit())
        .unwrap_or(text.len());
    let number: &[u8] = random.pick(&[
        b" 65536".as_slice(),
        b" 65535",
        b" 99999",
        b" 100000",
        b" 4294967296",
        b" 18446744073709551616",
        b" 00",
        b" 01",
        b" -1",
        b" +1",
        b"  1",
        b" ",
        b"",
        b" 1 1",
        b" 1.0",
        b" 6",
        b" 7",
        b" 8",
        b" 11",
        b"\t1",
        b" 0",
        b" 1",
        b" 2",
    ]);
    let mut changed = text[..at].to_vec();
    match random.below(4) {
        0 => {
            changed.extend_from_slice(b" 0");
            changed.extend_from_slice(&text[at + 1..]);
        }
        1 => {
            changed.push(b' ');
            changed.extend_from_slice(&text[at..]);
        }
        _ => {
            changed.extend_from_slice(number);
            changed.extend_from_slice(&text[end..]);
        }
    }
    changed
}

/// Changes of line ends, of the end of the file and of its length.
fn damage_ends(random: &mut Random, mut text: Vec<u8>) -> Vec<u8> {
    match random.below(10) {
        0 => text
            .iter()
            .flat_map(|&b| match b {
                LINE_FEED => vec![b'\r', LINE_FEED],
                _ => vec![b],
            })
            .collect(),
        1 | 2 => {
            text.pop();
            text
        }
        3 => {
            text.push(LINE_FEED);
            text
        }
        4 => {
            text.extend_from_slice(random.pick(&[b" ".as_slice(), b"(", b"\0", b"()\n"]));
            text
        }
        5 => {
            text.insert(0, random.pick(b"\n (\xef"));
            text
        }
        6 => lengthened(random, &text, MOST_BYTES),
        7 => lengthened(random, &text, MOST_BYTES + 1),
        8 => vec![],
        _ => text.iter().map(u8::to_ascii_uppercase).collect(),
    }
}
