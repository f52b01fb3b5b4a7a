//! R-5, written from document 02 alone: the steps one after another over the
//! whole text, as a list of lines that keep their original numbers.

use crate::limits::TABLE_BYTES;

/// What is left of a text, and the list of what was changed.
#[derive(Clone, Debug, PartialEq, Eq)]
pub struct Mended {
    pub text: Vec<u8>,
    pub list: Vec<u8>,
}

/// A line that is left, with its number in the original text.
struct Line {
    number: usize,
    bytes: Vec<u8>,
    ended: bool,
}

/// `None` for refusal 1, on the original bytes or those left.
pub fn salvage(original: &[u8]) -> Option<Mended> {
    if original.len() > TABLE_BYTES {
        return None;
    }
    let mut lines = lines_of(original);
    let mut fixes: Vec<(usize, u8)> = Vec::new();
    change(&mut lines, &mut fixes, 1, |bytes| {
        bytes.retain(|&byte| byte != b'\r');
    });
    change(&mut lines, &mut fixes, 2, |bytes| {
        while bytes.last() == Some(&b' ') {
            bytes.pop();
        }
    });
    for line in lines.iter().filter(|line| line.bytes.is_empty()) {
        fixes.push((line.number, 3));
    }
    lines.retain(|line| !line.bytes.is_empty());
    change(&mut lines, &mut fixes, 4, without_padding);
    if let Some(last) = lines.last_mut()
        && !last.ended
    {
        last.ended = true;
        fixes.push((last.number, 5));
    }
    let text: Vec<u8> = lines.into_iter().flat_map(|line| line.bytes.into_iter().chain([b'\n'])).collect();
    if text.len() > TABLE_BYTES {
        return None;
    }
    fixes.sort_unstable();
    let list = fixes.iter().flat_map(|(line, kind)| format!("fix={line},{kind}\n").into_bytes()).collect();
    Some(Mended { text, list })
}

/// Applies a step to every line, and lists the lines that it changed.
fn change(lines: &mut [Line], fixes: &mut Vec<(usize, u8)>, kind: u8, step: impl Fn(&mut Vec<u8>)) {
    for line in lines {
        let before = line.bytes.clone();
        step(&mut line.bytes);
        if line.bytes != before {
            fixes.push((line.number, kind));
        }
    }
}

fn lines_of(text: &[u8]) -> Vec<Line> {
    text.split_inclusive(|&byte| byte == b'\n')
        .enumerate()
        .map(|(index, line)| {
            let ended = line.ends_with(b"\n");
            Line { number: index + 1, bytes: line[..line.len() - usize::from(ended)].to_vec(), ended }
        })
        .collect()
}

/// Takes zeros off the start of every run of digits after the first `=`, as
/// long as another digit follows.
fn without_padding(bytes: &mut Vec<u8>) {
    let Some(sign) = bytes.iter().position(|&byte| byte == b'=') else {
        return;
    };
    let mut at = sign + 1;
    while at < bytes.len() {
        let run = bytes[at..].iter().take_while(|byte| byte.is_ascii_digit());
        let length = run.count();
        let padding = bytes[at..at + length]
            .iter()
            .take(length.saturating_sub(1))
            .take_while(|&&byte| byte == b'0')
            .count();
        bytes.drain(at..at + padding);
        at += length - padding + 1;
    }
}

#[cfg(test)]
mod tests {
    use super::{Mended, salvage};

    fn mends(original: &str, text: &str, list: &str) {
        let expected = Mended { text: text.into(), list: list.into() };
        assert_eq!(salvage(original.as_bytes()), Some(expected), "{original:?}");
    }

    #[test]
    fn worked_examples() {
        mends("a=01 \r\n", "a=1\n", "fix=1,1\nfix=1,2\nfix=1,4\n");
        mends("\r\n \na=1\n\n", "a=1\n", "fix=1,1\nfix=1,3\nfix=2,2\nfix=2,3\nfix=4,3\n");
        mends("a=1\n\nb=2", "a=1\nb=2\n", "fix=2,3\nfix=3,5\n");
        mends("a=1\n \r", "a=1\n", "fix=2,1\nfix=2,2\nfix=2,3\n");
        mends("\r", "", "fix=1,1\nfix=1,3\n");
        mends("00x=000,0010,100,0a007=00\n", "00x=0,10,100,0a7=0\n", "fix=1,4\n");
        mends("a=0\r1\nb=0 1 2\nc\t \n", "a=1\nb=0 1 2\nc\t\n", "fix=1,1\nfix=1,4\nfix=3,2\n");
        mends("after=01,10,000\n", "after=1,10,0\n", "fix=1,4\n");
    }

    #[test]
    fn lengths() {
        let letters = vec![b'x'; 4096];
        assert_eq!(salvage(&letters), None);
        assert_eq!(salvage(&[b'\r'; 4097]), None);
        let mut ended = letters.clone();
        ended[4095] = b'\r';
        let mut text = letters;
        text[4095] = b'\n';
        let list = b"fix=1,1\nfix=1,5\n".to_vec();
        assert_eq!(salvage(&ended), Some(Mended { text, list }));
    }
}
