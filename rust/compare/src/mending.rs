//! Salvage: the calls made on one spoiled text, with both outputs and every byte around them.

use crate::library::Library;
use generator::Rng;
use simulator::salvage::{Mended, salvage};
use std::fmt;
use std::ops::AddAssign;

/// What a call of salvage returns: the lengths of the text and of the list; or a refusal's number, line
/// and column, with lengths 0.
#[derive(Clone, Copy, Debug, Default, PartialEq, Eq)]
pub struct Salvaged {
    pub number: u32,
    pub line: u32,
    pub column: u32,
    pub text_length: usize,
    pub list_length: usize,
}

/// What a call returned, and both lent buffers with their guards after it.
#[derive(Clone, Debug, PartialEq, Eq)]
pub struct Outcome {
    pub answer: Salvaged,
    pub text: Vec<u8>,
    pub list: Vec<u8>,
}

/// A call on which the library and the second simulator differ.
#[derive(Clone, Debug, PartialEq, Eq)]
pub struct Difference {
    pub rooms: [usize; 2],
    pub expected: Outcome,
    pub got: Outcome,
}

/// The kinds of change, from 1.
pub const KINDS: usize = 5;

/// How often each outcome of salvage came up.
#[derive(Clone, Copy, Debug, Default, PartialEq, Eq)]
pub struct Mendings {
    /// Texts, and those of them that passed unchanged.
    pub texts: u64,
    pub unchanged: u64,
    /// Lines of the lists by their kind.
    pub fixes: [u64; KINDS + 1],
    /// Calls answered, refused for their length, and refused for a short buffer.
    pub answered: u64,
    pub too_long: u64,
    pub short: u64,
}

impl Mendings {
    /// The outcomes with their counts, each of which a run must meet.
    pub fn counts(&self) -> Vec<(String, u64)> {
        let mut all: Vec<(String, u64)> =
            (1..=KINDS).map(|kind| (format!("a fix of kind {kind}"), self.fixes[kind])).collect();
        all.push(("a text salvaged unchanged".into(), self.unchanged));
        all.push(("a salvage answered".into(), self.answered));
        all.push(("a salvage refused as 1".into(), self.too_long));
        all.push(("a salvage refused as 10".into(), self.short));
        all
    }
}

impl AddAssign<&Mendings> for Mendings {
    fn add_assign(&mut self, other: &Mendings) {
        self.fixes.iter_mut().zip(other.fixes).for_each(|(to, from)| *to += from);
        self.texts += other.texts;
        self.unchanged += other.unchanged;
        self.answered += other.answered;
        self.too_long += other.too_long;
        self.short += other.short;
    }
}

impl fmt::Display for Mendings {
    fn fmt(&self, out: &mut fmt::Formatter) -> fmt::Result {
        write!(out, "{} texts salvaged, {} unchanged", self.texts, self.unchanged)?;
        for kind in 1..=KINDS {
            write!(out, ", {} fixes of kind {kind}", self.fixes[kind])?;
        }
        let Mendings { answered, too_long, short, .. } = self;
        write!(out, "; calls answered {answered}, refused as 1 {too_long}, refused as 10 {short}")
    }
}

/// Bytes on both sides of a lent buffer that no call may touch.
const GUARD: usize = 24;

/// Counts what comes of a text, and gives the first difference from the second simulator.
pub fn check(library: &dyn Library, given: &[u8], rng: &mut Rng, seen: &mut Mendings) -> Option<Difference> {
    let reply = salvage(given);
    seen.texts += 1;
    if let Some(Mended { text, list }) = &reply {
        seen.unchanged += u64::from(text == given);
        for line in list.split(|&byte| byte == b'\n').filter(|line| !line.is_empty()) {
            seen.fixes[usize::from(line[line.len() - 1] - b'0')] += 1;
        }
    }
    rooms(reply.as_ref(), rng)
        .into_iter()
        .find_map(|rooms| difference(library, given, reply.as_ref(), rooms, seen))
}

/// Buffers that just hold the outputs, that are a byte short in one or both, that are empty, and any.
fn rooms(reply: Option<&Mended>, rng: &mut Rng) -> Vec<[usize; 2]> {
    let Some(Mended { text, list }) = reply else { return vec![[0, 0], [4200, 100]] };
    let (text, list) = (text.len(), list.len());
    let (less, fewer) = (text.saturating_sub(1), list.saturating_sub(1));
    let any = [rng.below(text + 3), rng.below(list + 3)];
    vec![[text, list], [less, list], [text, fewer], [less, fewer], [0, list], [text + 30, list + 30], any]
}

fn untouched(room: usize) -> Vec<u8> {
    (0..room + 2 * GUARD).map(|at| 0x80 | (at as u8).wrapping_mul(37)).collect()
}

fn difference(
    library: &dyn Library,
    given: &[u8],
    reply: Option<&Mended>,
    rooms: [usize; 2],
    seen: &mut Mendings,
) -> Option<Difference> {
    let expected = lend(reply, rooms);
    match expected.answer.number {
        0 => seen.answered += 1,
        1 => seen.too_long += 1,
        _ => seen.short += 1,
    }
    let [mut text, mut list] = rooms.map(untouched);
    let inside = |room: usize| GUARD..GUARD + room;
    let answer = library.salvage(given, &mut text[inside(rooms[0])], &mut list[inside(rooms[1])]);
    let got = Outcome { answer, text, list };
    (got != expected).then_some(Difference { rooms, expected, got })
}

/// Document 02: 1 first, then 10 for either output, with neither written.
fn lend(reply: Option<&Mended>, rooms: [usize; 2]) -> Outcome {
    let [mut text, mut list] = rooms.map(untouched);
    let refused = |number| Salvaged { number, ..Salvaged::default() };
    let answer = match reply {
        None => refused(1),
        Some(mended) if mended.text.len() > rooms[0] || mended.list.len() > rooms[1] => refused(10),
        Some(mended) => {
            text[GUARD..GUARD + mended.text.len()].copy_from_slice(&mended.text);
            list[GUARD..GUARD + mended.list.len()].copy_from_slice(&mended.list);
            let (text_length, list_length) = (mended.text.len(), mended.list.len());
            Salvaged { text_length, list_length, ..Salvaged::default() }
        }
    };
    Outcome { answer, text, list }
}

impl fmt::Display for Difference {
    fn fmt(&self, out: &mut fmt::Formatter) -> fmt::Result {
        let [text, list] = self.rooms;
        writeln!(out, "salvage with buffers of {text} and {list}")?;
        writeln!(out, "second simulator: {}", self.expected)?;
        write!(out, "library:          {}", self.got)
    }
}

impl fmt::Display for Outcome {
    fn fmt(&self, out: &mut fmt::Formatter) -> fmt::Result {
        let Salvaged { number, line, column, text_length, list_length } = self.answer;
        write!(
            out,
            "number {number}, line {line}, column {column}, lengths {text_length} and {list_length}"
        )?;
        for (name, bytes) in [("text", &self.text), ("list", &self.list)] {
            let end = bytes.len() - GUARD;
            write!(out, ", {name} \"{}\"", bytes[GUARD..end].escape_ascii())?;
            let clean = untouched(end - GUARD);
            if bytes[..GUARD] != clean[..GUARD] || bytes[end..] != clean[end..] {
                write!(out, ", and bytes outside it changed")?;
            }
        }
        Ok(())
    }
}
