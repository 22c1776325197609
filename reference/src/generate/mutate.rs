//! Byte-level mutations of a harbour file, blind to what it says. `damage` aims
//! at the rules of a file; these do not.

use crate::random::Random;

/// A copy of the text with one to four mutations by the seed.
pub fn mutate(seed: u64, text: &[u8]) -> Vec<u8> {
    let mut random = Random::new(seed ^ 0x6D75_7461_7465);
    let mut text = text.to_vec();
    for _ in 0..random.pick(&[1, 1, 1, 2, 3, 4]) {
        if text.is_empty() {
            text.push(random.word() as u8);
        }
        match random.below(10) {
            // Most often a digit for a digit: the file may well be read.
            0..=3 => change_digit(&mut random, &mut text),
            4..=6 => change_byte(&mut random, &mut text),
            7 => change_stretch(&mut random, &mut text),
            _ => change_lines(&mut random, &mut text),
        }
    }
    text
}

/// Another digit in the place of one, or a digit more or less.
fn change_digit(random: &mut Random, text: &mut Vec<u8>) {
    let digits: Vec<usize> = (0..text.len())
        .filter(|&at| text[at].is_ascii_digit())
        .collect();
    if digits.is_empty() {
        return;
    }
    let at = random.pick(&digits);
    let digit = random.pick(b"0012345679");
    match random.below(6) {
        0 => text.insert(at, digit),
        1 => {
            text.remove(at);
        }
        _ => text[at] = digit,
    }
}

/// One byte changed, dropped, doubled or inserted.
fn change_byte(random: &mut Random, text: &mut Vec<u8>) {
    let at = random.below(text.len());
    let byte = random.word() as u8;
    match random.below(5) {
        0 => text[at] = byte,
        1 => text[at] ^= 1 << random.below(8),
        2 => {
            text.remove(at);
        }
        3 => text.insert(at, text[at]),
        _ => text.insert(at, byte),
    }
}

/// A stretch of bytes dropped, doubled, copied elsewhere or cut off.
fn change_stretch(random: &mut Random, text: &mut Vec<u8>) {
    let start = random.below(text.len());
    let most = random.pick(&[4, 40, 400]);
    let end = (start + random.between(1, most)).min(text.len());
    let stretch = text[start..end].to_vec();
    match random.below(4) {
        0 => {
            text.drain(start..end);
        }
        1 => {
            text.splice(end..end, stretch);
        }
        2 => {
            let to = random.below(text.len());
            text.splice(to..to, stretch);
        }
        _ => match random.chance(1, 2) {
            true => text.truncate(start),
            false => {
                text.drain(..start);
            }
        },
    }
}

/// Two lines swapped, a line dropped, doubled or moved.
fn change_lines(random: &mut Random, text: &mut Vec<u8>) {
    let mut lines: Vec<Vec<u8>> = text
        .split_inclusive(|&byte| byte == b'\n')
        .map(<[u8]>::to_vec)
        .collect();
    let at = random.below(lines.len());
    let to = random.below(lines.len());
    let next = (at + 1).min(lines.len() - 1);
    match random.below(6) {
        0 => lines.swap(at, to),
        1 | 2 => lines.swap(at, next),
        3 => {
            lines.remove(at);
        }
        4 => lines.insert(at, lines[at].clone()),
        _ => lines.insert(to, lines[at].clone()),
    }
    *text = lines.concat();
}
