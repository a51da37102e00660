// Lines of a trace, and the text of answers.
use crate::disk::{Block, BLOCK_SIZE};
use crate::write::Pair;
use std::io::{self, BufRead, Read};

pub const MAX_LINE: usize = 1100;
pub const MAX_PAIRS: usize = 8;

pub enum Request {
    Read(u32),
    // The first so many pairs stand beside it.
    Write(usize),
    Flush,
    Upkeep(Upkeep),
}

// What keeps the array up or tells of it.
pub enum Upkeep {
    Tick,
    Up,
    Down,
    Fail(u32),
    Replace(u32),
    State,
    Energy,
}

// Where a byte stands first. Whether it stands in a piece is found for many bytes at once.
pub fn find(text: &[u8], wanted: u8) -> Option<usize> {
    const PIECE: usize = 32;
    let has = |piece: &[u8]| piece.iter().fold(false, |found, &byte| found | (byte == wanted));
    let start = PIECE * text.chunks(PIECE).position(has)?;
    text[start..].iter().position(|&byte| byte == wanted).map(|at| start + at)
}

// The first word of a text, and what follows the blank after it.
fn cut(text: &[u8]) -> (&[u8], Option<&[u8]>) {
    match find(text, b' ') {
        Some(at) => (&text[..at], Some(&text[at + 1..])),
        None => (text, None),
    }
}

// A number below 2^32 in decimal digits, with no zero before another digit.
fn number(digits: &[u8]) -> Option<u32> {
    if !(1..=10).contains(&digits.len()) || (digits.len() > 1 && digits[0] == b'0') {
        return None;
    }
    let mut n = 0;
    for &digit in digits {
        if !digit.is_ascii_digit() {
            return None;
        }
        n = 10 * n + u64::from(digit - b'0');
    }
    n.try_into().ok()
}

// What a hexadecimal digit stands for, and more than 15 for another byte.
const VALUES: [u8; 256] = {
    let mut values = [255; 256];
    let mut n = 0;
    while n < 16 {
        values[DIGITS[n] as usize] = n as u8;
        values[DIGITS[n].to_ascii_uppercase() as usize] = n as u8;
        n += 1;
    }
    values
};

// Makes the block that repeats the bytes of 2 to 1,024 hexadecimal digits.
fn spread(digits: &[u8], block: &mut Block) -> Option<()> {
    if digits.len() % 2 == 1 || !(2..=2 * BLOCK_SIZE).contains(&digits.len()) {
        return None;
    }
    let mut all = 0;
    for (byte, pair) in block.iter_mut().zip(digits.chunks_exact(2)) {
        let (high, low) = (VALUES[pair[0] as usize], VALUES[pair[1] as usize]);
        *byte = high << 4 | low;
        all |= high | low;
    }
    if all > 15 {
        return None;
    }
    let mut done = digits.len() / 2;
    if done == 1 {
        *block = [block[0]; BLOCK_SIZE];
        return Some(());
    }
    while done < BLOCK_SIZE {
        let more = done.min(BLOCK_SIZE - done);
        block.copy_within(..more, done);
        done += more;
    }
    Some(())
}

// Takes the one to eight pairs of a write, and gives their number.
fn pairs_of(text: &[u8], pairs: &mut [Pair; MAX_PAIRS]) -> Option<usize> {
    let mut rest = Some(text);
    let mut count = 0;
    while let Some(text) = rest {
        let (block, bytes) = cut(text);
        let (digits, more) = cut(bytes?);
        let pair = pairs.get_mut(count)?;
        pair.block = number(block)?;
        spread(digits, &mut pair.bytes)?;
        count += 1;
        rest = more;
    }
    Some(count)
}

// What a line asks for, unless it is no request.
pub fn parse(line: &[u8], pairs: &mut [Pair; MAX_PAIRS]) -> Option<Request> {
    if line.len() > MAX_LINE {
        return None;
    }
    match line {
        b"f" => Some(Request::Flush),
        [b'r', b' ', block @ ..] => number(block).map(Request::Read),
        [b'w', b' ', text @ ..] => pairs_of(text, pairs).map(Request::Write),
        _ => parse_upkeep(line).map(Request::Upkeep),
    }
}

fn parse_upkeep(line: &[u8]) -> Option<Upkeep> {
    match cut(line) {
        (b"t", None) => Some(Upkeep::Tick),
        (b"up", None) => Some(Upkeep::Up),
        (b"down", None) => Some(Upkeep::Down),
        (b"fail", Some(disk)) => number(disk).map(Upkeep::Fail),
        (b"replace", Some(disk)) => number(disk).map(Upkeep::Replace),
        (b"s", None) => Some(Upkeep::State),
        (b"e", None) => Some(Upkeep::Energy),
        _ => None,
    }
}

pub fn push_number(mut n: u64, text: &mut Vec<u8>) {
    let mut digits = [0; 20];
    let mut at = digits.len();
    loop {
        at -= 1;
        digits[at] = b'0' + (n % 10) as u8;
        n /= 10;
        if n == 0 {
            break;
        }
    }
    text.extend_from_slice(&digits[at..]);
}

pub fn push_line(word: &[u8], n: u64, text: &mut Vec<u8>) {
    text.extend_from_slice(word);
    push_number(n, text);
    text.push(b'\n');
}

const DIGITS: &[u8; 16] = b"0123456789abcdef";

// The two digits of each byte.
const TWO_DIGITS: [[u8; 2]; 256] = {
    let mut all = [[0; 2]; 256];
    let mut n = 0;
    while n < 256 {
        all[n] = [DIGITS[n / 16], DIGITS[n % 16]];
        n += 1;
    }
    all
};

// The text of a block: the shortest list of bytes whose repetition it is.
pub fn push_block(block: &Block, text: &mut Vec<u8>) {
    let is_period = |&p: &usize| block[p] == block[0] && block[p..] == block[..BLOCK_SIZE - p];
    let period = (1..BLOCK_SIZE).find(is_period).unwrap_or(BLOCK_SIZE);
    let start = text.len();
    text.resize(start + 2 * period, 0);
    for (digits, &byte) in text[start..].chunks_exact_mut(2).zip(block) {
        digits.copy_from_slice(&TWO_DIGITS[byte as usize]);
    }
}

// Takes the next line without its newline, or says that there is none. Of one that is too long a part is kept.
pub fn next_line(source: &mut impl BufRead, line: &mut Vec<u8>) -> io::Result<bool> {
    line.clear();
    if source.by_ref().take(MAX_LINE as u64 + 1).read_until(b'\n', line)? == 0 {
        return Ok(false);
    }
    if line.last() == Some(&b'\n') {
        line.pop();
    } else if line.len() > MAX_LINE {
        source.skip_until(b'\n')?;
    }
    Ok(true)
}
