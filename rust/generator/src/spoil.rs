//! Texts as other editors leave them: a table with carriage returns, blanks at line ends, empty lines,
//! zeros before digits, or without its last line feed.

use crate::make::make;
use crate::rng::Rng;

/// The spoiled text of a seed: its table, with some marks of editors; now and then with none.
pub fn spoiled(seed: u64) -> Vec<u8> {
    let mut rng = Rng::new(seed ^ 0x5a1f_a6e0);
    let mut text = make(seed).text;
    for _ in 0..rng.below(5) {
        spoil(&mut rng, &mut text);
    }
    text
}

fn spoil(rng: &mut Rng, text: &mut Vec<u8>) {
    match rng.below(9) {
        0 => every_line(rng, text, |_, line| line.push(b'\r')),
        1 => every_line(rng, text, |rng, line| line.extend(vec![b' '; rng.below(3)])),
        2 => every_line(rng, text, |rng, line| line.extend((0..rng.below(4)).map(|_| rng.pick(b" \r\t")))),
        3 => every_line(rng, text, |rng, line| {
            let marks = rng.pick(&[&b"\n"[..], b"\r\n", b" \n", b"", b"\n\n", b" \r\n"]);
            line.splice(0..0, marks.iter().copied());
        }),
        4 => every_line(rng, text, pad),
        5 => scatter(rng, text, b"\r"),
        6 => scatter(rng, text, b"0 =\r\n\t,a"),
        7 => {
            text.pop();
        }
        _ => lengthen(rng, text),
    }
}

/// Changes every line, or every third on the whole, in front of its LF.
fn every_line(rng: &mut Rng, text: &mut Vec<u8>, change: impl Fn(&mut Rng, &mut Vec<u8>)) {
    let some = rng.once_in(2);
    let mut changed = Vec::new();
    for line in text.split_inclusive(|&byte| byte == b'\n') {
        let ended = line.ends_with(b"\n");
        let mut line = line.strip_suffix(b"\n").unwrap_or(line).to_vec();
        if !some || rng.once_in(3) {
            change(rng, &mut line);
        }
        changed.extend(line);
        changed.extend(ended.then_some(b'\n'));
    }
    *text = changed;
}

/// Zeros in front of a digit, before the first `=` or behind it.
fn pad(rng: &mut Rng, line: &mut Vec<u8>) {
    let digits: Vec<usize> = (0..line.len()).filter(|&at| line[at].is_ascii_digit()).collect();
    let at = if digits.is_empty() { rng.below(line.len() + 1) } else { rng.pick(&digits) };
    line.splice(at..at, vec![b'0'; 1 + rng.below(3)]);
}

/// Some bytes anywhere.
fn scatter(rng: &mut Rng, text: &mut Vec<u8>, from: &[u8]) {
    for _ in 0..1 + rng.below(6) {
        let at = rng.below(text.len() + 1);
        text.insert(at, rng.pick(from));
    }
}

/// Brings the text near the limit of a table's bytes, by bytes that stay or that go.
fn lengthen(rng: &mut Rng, text: &mut Vec<u8>) {
    let length = 4094 + rng.below(5);
    let filler = rng.pick(b"x0 \r\n");
    let at = if rng.once_in(2) { text.len() } else { rng.below(text.len() + 1) };
    text.splice(at..at, vec![filler; length.saturating_sub(text.len())]);
}
