//! The worked cases of R-12 on the second simulator.

mod common;

use common::{bytes, chain, refused, refused_at, text};
use simulator::{Margin, Reply, margin};

fn chain_1_1(rounds: u32) -> Vec<u8> {
    bytes(1, rounds, vec![chain(4, 0, &[1, 1])])
}

fn two_graphs() -> Vec<u8> {
    bytes(1, 64, vec![chain(4, 0, &[1]), chain(4, 0, &[1])])
}

fn of_table(table: &[u8], limits: &[u8], reply: Reply) {
    assert_eq!(margin(table, limits), Margin { reply, in_limits: false });
}

fn of_limits(table: &[u8], limits: &[u8], reply: Reply) {
    assert_eq!(margin(table, limits), Margin { reply, in_limits: true });
}

#[test]
fn a_margin_after_each_response() {
    for (limit, given) in [(6, "0"), (5, "-1"), (0, "-6"), (7, "1"), (2_000_000, "1999994")] {
        let says = format!("answer=0\nround=2\nticks=8\nresponse=6\nmargin={given}\n");
        of_table(&chain_1_1(64), format!("limit={limit}\n").as_bytes(), text(&says));
    }
    let says = "answer=0\nround=1\nticks=4\nresponse=1\nmargin=10\nresponse=2\nmargin=-1\n";
    of_table(&two_graphs(), b"limit=11\nlimit=1\n", text(says));
}

#[test]
fn refusals_of_the_limit_text() {
    let table = chain_1_1(64);
    of_limits(&table, b"", refused_at(2, 1, 1));
    of_limits(&table, b"limit=6", refused_at(2, 1, 8));
    of_limits(&table, b"limit=06\n", refused_at(2, 1, 8));
    of_limits(&table, b"limit=-1\n", refused_at(2, 1, 7));
    of_limits(&table, b"level=1\n", refused_at(2, 1, 2));
    of_limits(&table, b"limit=2000001\n", refused_at(3, 1, 7));
    of_limits(&table, b"limit=6\nlimit=6\n", refused_at(2, 2, 1));
    of_limits(&two_graphs(), b"limit=6\n", refused_at(2, 2, 1));
    of_limits(&two_graphs(), b"limit=2000001\nlimit\n", refused_at(3, 1, 7));
    of_limits(&table, &[b'\n'; 4096], refused_at(2, 1, 1));
    of_limits(&table, &[b'\n'; 4097], refused(1, 0));
}

#[test]
fn the_tables_own_come_first() {
    of_table(b"", b"", refused_at(2, 1, 1));
    of_table(&[b'\n'; 4097], &[b'\n'; 4097], refused(1, 0));
    of_table(&bytes(1, 64, vec![chain(4, 0, &[3, 2])]), b"", refused(6, 0));
    of_table(&bytes(8, 64, vec![chain(1, 0, &[8])]), b"", refused(12, 0));
    of_table(&chain_1_1(1), b"", refused(8, 0));
    of_table(&bytes(2, 64, vec![chain(3, 0, &[2, 2]), chain(546, 0, &[364])]), b"", refused(7, 0));
}
