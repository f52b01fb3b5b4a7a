//! Salvage: a text that another editor spoiled, mended, and the list of what was mended.

use crate::refusal::Refusal;

/// What a salvage returns: number, line and column 0 and the lengths of both outputs; or the number of a
/// refusal, its line and column, and lengths 0.
#[repr(C)]
#[derive(Clone, Copy, Debug, PartialEq, Eq)]
#[must_use = "it may be a refusal"]
pub struct Salvaged {
    /// 0 where the text was mended, else the number of the refusal.
    pub number: u32,
    /// 0: no refusal of salvage has a line.
    pub line: u32,
    /// 0, as the line.
    pub column: u32,
    /// The bytes of the mended text.
    pub text_length: usize,
    /// The bytes of the list.
    pub list_length: usize,
}

unsafe extern "C" {
    fn phalandrix_salvage(
        bytes: *const u8,
        bytes_len: usize,
        text: *mut u8,
        text_len: usize,
        list: *mut u8,
        list_len: usize,
    ) -> Salvaged;
}

/// The mended text and the list of what was mended, each written at the beginning of its lent buffer. The
/// rest of the buffers is left as it was, and on refusal all of both.
pub fn salvage(bytes: &[u8], text: &mut [u8], list: &mut [u8]) -> Salvaged {
    // SAFETY: each pointer comes with the length of its own slice, the slices live through the call and
    // cannot overlap, and the library keeps none of the pointers.
    unsafe {
        phalandrix_salvage(
            bytes.as_ptr(),
            bytes.len(),
            text.as_mut_ptr(),
            text.len(),
            list.as_mut_ptr(),
            list.len(),
        )
    }
}

/// What was mended in a line.
#[derive(Clone, Copy, Debug, PartialEq, Eq, Hash)]
#[repr(u32)]
pub enum Kind {
    /// 1: carriage returns went.
    CarriageReturns = 1,
    /// 2: blanks at its end went.
    Blanks = 2,
    /// 3: it was left with no byte, and went.
    Empty = 3,
    /// 4: zeros before another digit went.
    Zeros = 4,
    /// 5: the last line feed was missing.
    LineFeed = 5,
}

/// One line of the list.
#[derive(Clone, Copy, Debug, PartialEq, Eq)]
#[non_exhaustive]
pub struct Fix {
    /// The line of the original text, from 1.
    pub line: u32,
    /// What was mended in it.
    pub kind: Kind,
}

/// A mended text and its list, in the buffers that were lent for them.
#[derive(Clone, Copy, Debug, PartialEq, Eq)]
#[must_use]
pub struct Mended<'a> {
    text: &'a [u8],
    list: &'a str,
}

/// A text mended, in buffers of its caller. Buffers of [`SALVAGE_BYTES`](crate::SALVAGE_BYTES) and
/// [`FIXES_BYTES`](crate::FIXES_BYTES) hold every text and every list.
///
/// # Errors
///
/// 1, where the text is too long, before or after; 10, where a buffer is too short.
pub fn mended<'a>(bytes: &[u8], text: &'a mut [u8], list: &'a mut [u8]) -> Result<Mended<'a>, Refusal> {
    let Salvaged { number, line, column, text_length, list_length } = salvage(bytes, text, list);
    if number != 0 {
        return Err(Refusal::new(number, line, column));
    }
    let list = core::str::from_utf8(&list[..list_length]).expect("a list is ASCII");
    Ok(Mended { text: &text[..text_length], list })
}

impl<'a> Mended<'a> {
    /// What is left of the text.
    #[must_use]
    pub fn text(&self) -> &'a [u8] {
        self.text
    }

    /// The list, as the program prints it: empty where nothing was to be mended.
    #[must_use]
    pub fn list(&self) -> &'a str {
        self.list
    }

    /// What was mended, by line and then kind.
    pub fn fixes(&self) -> impl Iterator<Item = Fix> + 'a {
        self.list.lines().map(|line| {
            let (line, kind) = line["fix=".len()..].split_once(',').expect("a line and a kind");
            let kind = match kind {
                "1" => Kind::CarriageReturns,
                "2" => Kind::Blanks,
                "3" => Kind::Empty,
                "4" => Kind::Zeros,
                "5" => Kind::LineFeed,
                _ => unreachable!("the list has kinds 1 to 5"),
            };
            Fix { line: line.parse().expect("a number"), kind }
        })
    }
}
