//! Limit texts: one line per graph near its figure, at a limit or past it; too few lines or too many;
//! and texts that are damaged or too long.

use crate::Rng;

/// The largest age limit.
const MOST: u32 = 2_000_000;

/// A text for a table with these figures.
pub fn limit_text(figures: &[u32], rng: &mut Rng) -> Vec<u8> {
    let mut lines: Vec<String> =
        figures.iter().map(|&figure| format!("limit={}\n", age(figure, rng))).collect();
    if rng.once_in(8) {
        lines.pop();
    }
    if rng.once_in(8) {
        lines.push("limit=1\n".into());
    }
    let mut text = lines.concat().into_bytes();
    match rng.below(12) {
        0 => text.truncate(rng.below(text.len() + 1)),
        1 => text.extend(vec![rng.pick(b"\n0 "); 4_080 + rng.below(30)]),
        2 => drop(text.pop()),
        3 if !text.is_empty() => {
            let at = rng.below(text.len());
            text[at] = rng.pick(b"0129=\nl-, \r\xff");
        }
        4 => text.insert(rng.below(text.len() + 1), rng.pick(b"0\n -=9")),
        _ => (),
    }
    text
}

/// A limit: around the figure, small, at the ends, or past them; sometimes of very many digits.
fn age(figure: u32, rng: &mut Rng) -> String {
    match rng.below(10) {
        0..=3 => (figure + rng.between(0, 4)).saturating_sub(2).to_string(),
        4 => rng.pick(&[0, 1, MOST - 1, MOST]).to_string(),
        5 => rng.between(0, MOST).to_string(),
        6 => rng.pick(&["2000001", "18446744073709551616", "4294967302", "00", "-1"]).to_string(),
        _ => figure.to_string(),
    }
}
