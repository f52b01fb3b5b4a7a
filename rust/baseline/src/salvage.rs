//! R-5 in plain Rust, line by line, in the proved library's place.

use crate::table::Table;

/// What a salvage returns: the lengths of both outputs, or a refusal with lengths 0.
#[derive(Clone, Copy, Debug, Default, PartialEq, Eq)]
pub struct Salvaged {
    pub number: u32,
    pub text_length: usize,
    pub list_length: usize,
}

/// The text mended and the list of what was mended, each from the start of its lent buffer.
pub fn salvage(bytes: &[u8], text: &mut [u8], list: &mut [u8]) -> Salvaged {
    let refused = |number| Salvaged { number, ..Salvaged::default() };
    if bytes.len() > Table::BYTES {
        return refused(1);
    }
    let (mut left, mut fixes) = (Vec::new(), Vec::new());
    for (number, line) in (1..).zip(bytes.split_inclusive(|&byte| byte == b'\n')) {
        mend(number, line, &mut left, &mut fixes);
    }
    if left.len() > Table::BYTES {
        return refused(1);
    }
    if left.len() > text.len() || fixes.len() > list.len() {
        return refused(10);
    }
    text[..left.len()].copy_from_slice(&left);
    list[..fixes.len()].copy_from_slice(&fixes);
    Salvaged { number: 0, text_length: left.len(), list_length: fixes.len() }
}

/// One line, with its LF where it has one.
fn mend(number: u32, line: &[u8], left: &mut Vec<u8>, fixes: &mut Vec<u8>) {
    let mut fix = |kind: u8| fixes.extend_from_slice(format!("fix={number},{kind}\n").as_bytes());
    let ended = line.ends_with(b"\n");
    let line = line.strip_suffix(b"\n").unwrap_or(line);
    let plain: Vec<u8> = line.iter().copied().filter(|&byte| byte != b'\r').collect();
    if plain.len() != line.len() {
        fix(1);
    }
    let kept = plain.iter().rposition(|&byte| byte != b' ').map_or(0, |last| last + 1);
    if kept != plain.len() {
        fix(2);
    }
    if kept == 0 {
        fix(3);
        return;
    }
    let start = left.len();
    unpad(&plain[..kept], left);
    if left.len() - start != kept {
        fix(4);
    }
    left.push(b'\n');
    if !ended {
        fix(5);
    }
}

/// Without the zeros that a digit follows, at the start of a run behind the first `=`.
fn unpad(line: &[u8], left: &mut Vec<u8>) {
    let value = line.iter().position(|&byte| byte == b'=').unwrap_or(line.len());
    let mut in_run = false;
    for (at, &byte) in line.iter().enumerate() {
        let goes = at > value && !in_run && byte == b'0' && line.get(at + 1).is_some_and(u8::is_ascii_digit);
        if !goes {
            in_run = byte.is_ascii_digit();
            left.push(byte);
        }
    }
}
