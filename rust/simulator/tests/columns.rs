//! The columns of refusals 2, 3 and 4: each sentence of document 02's R-3.

mod common;
use common::*;
use simulator::{report, row};

const TABLE: [&str; 15] = [
    "processors=1",
    "rounds=64",
    "graphs=1",
    "period=9",
    "offset=0",
    "nodes=3",
    "budget=1",
    "level=1",
    "after=none",
    "budget=1",
    "level=1",
    "after=1",
    "budget=1",
    "level=1",
    "after=2",
];

/// The table with another text for one of its lines, numbered from 1.
fn with(line: usize, text: &str) -> Vec<u8> {
    let lines = TABLE.iter().enumerate().map(|(at, old)| match at + 1 == line {
        true => text.to_string(),
        false => format!("{old}\n"),
    });
    lines.collect::<String>().into_bytes()
}

fn refuses(table: &[u8], number: u32, line: u32, column: u32) {
    let expected = refused_at(number, line, column);
    assert_eq!(report(table), expected, "{}", table.escape_ascii());
    assert_eq!(row(table, 0), expected, "{}", table.escape_ascii());
}

#[test]
fn the_first_byte_that_no_well_spelled_line_has() {
    for (line, text, column) in [
        (1, "processors=01\n", 13),
        (1, "processors=\n", 12),
        (1, "processors=1\r\n", 13),
        (4, "preiod=4\n", 2),
        (4, "periods=4\n", 7),
        (4, "period =4\n", 7),
        (4, "period=4 \n", 9),
        (4, "period=4x\n", 9),
        (4, "period=00\n", 9),
        (4, "\n", 1),
        (5, "offset=-1\n", 8),
        (9, "after=non\n", 10),
        (9, "after=nonee\n", 11),
        (12, "after=\n", 7),
        (12, "after=1,\n", 9),
        (15, "after=1,,2\n", 9),
        (15, "after=1,02\n", 10),
        (15, "after=1,none\n", 9),
    ] {
        refuses(&with(line, text), 2, line as u32, column);
    }
}

#[test]
fn one_past_the_end_of_a_line_cut_off() {
    let whole = with(0, "");
    let (mut line, mut column) = (1, 1);
    for (length, byte) in whole.iter().enumerate() {
        refuses(&whole[..length], 2, line, column);
        (line, column) = if *byte == b'\n' { (line + 1, 1) } else { (line, column + 1) };
    }
}

#[test]
fn bytes_after_the_last_line() {
    for more in ["\n", "x", "after=none\n"] {
        refuses(&with(15, &format!("after=2\n{more}")), 2, 16, 1);
    }
}

#[test]
fn the_first_digit_of_a_number_outside_its_limits() {
    for (line, text, column) in
        [(1, "processors=4294967297\n", 12), (2, "rounds=65\n", 8), (6, "nodes=17\n", 7), (8, "level=0\n", 7)]
    {
        refuses(&with(line, text), 3, line as u32, column);
    }
    let many = bytes(1, 1, [16, 16, 1].map(|nodes| chain(100, 0, &vec![1; nodes])).to_vec());
    refuses(&many, 3, 108, 7);
}

#[test]
fn the_first_number_that_breaks_the_predecessor_rules() {
    for (line, text, column) in [
        (9, "after=1\n", 7),
        (12, "after=none\n", 7),
        (12, "after=1,1\n", 9),
        (15, "after=0,1\n", 7),
        (15, "after=2,1\n", 9),
        (15, "after=1,2,3\n", 11),
        (15, "after=3,18446744073709551617\n", 7),
        (15, "after=18446744073709551617,1\n", 7),
    ] {
        refuses(&with(line, text), 4, line as u32, column);
    }
    let ten = bytes(1, 1, vec![chain(100, 0, &[1; 16])]);
    let list = [&ten[..ten.len() - 3], b"8,9,10,11,10\n"].concat();
    refuses(&list, 4, 54, 17);
}

#[test]
fn a_missing_successor() {
    refuses(&with(15, "after=1\n"), 4, 15, 1);
    refuses(&with(15, "after=1\njunk"), 4, 15, 1);
}
