//! Several tables in one call.

use phalandrix::{Reason, TABLES, batch, shares};

const TABLE: &[u8] = b"processors=1\nrounds=2\ngraphs=1\nperiod=4\noffset=0\nnodes=2\n\
    budget=1\nlevel=1\nafter=none\nbudget=1\nlevel=1\nafter=1\n";
const REPORT: &[u8] = b"answer=0\nround=2\nticks=8\nresponse=6\n";

/// The refusal of the call as a whole.
fn refused(tables: &[u8], lengths: &[usize]) -> Reason {
    let mut buffer = [0xee; 9];
    let answer = batch(tables, lengths, &mut buffer);
    assert_eq!(buffer, [0xee; 9]);
    assert_eq!((answer.line, answer.column, answer.count), (0, 0, 0));
    answer.result().expect_err("a refusal").reason
}

#[test]
fn one_refused_table_leaves_the_others() {
    let tables = [TABLE, b"x", TABLE].concat();
    let mut buffer = [0xee; 3 * REPORT.len() + 2];
    let answer = batch(&tables, &[TABLE.len(), 1, TABLE.len()], &mut buffer);
    let answers = answer.result().expect("answered");
    let results: Vec<_> = shares(answers, &buffer).collect();
    assert_eq!((results[0], results[2]), (Ok(REPORT), Ok(REPORT)));
    assert_eq!(results[1].map_err(|refusal| (refusal.reason, refusal.line)), Err((Reason::Misspelled, 1)));
    assert_eq!(&buffer[..REPORT.len()], REPORT);
    assert!(buffer[REPORT.len()..2 * REPORT.len()].iter().all(|&byte| byte == 0xee));
    assert_eq!(buffer[3 * REPORT.len()..], [0xee; 2]);
}

#[test]
fn sixteen_tables_and_short_shares() {
    let mut buffer = [0xee; TABLES];
    let answer = batch(&TABLE.repeat(TABLES), &[TABLE.len(); TABLES], &mut buffer);
    let answers = answer.result().expect("answered");
    assert_eq!(answers.len(), TABLES);
    let results: Vec<_> = shares(answers, &buffer).collect();
    assert!(results.iter().all(|result| result.unwrap_err().reason == Reason::ShortBuffer));
    assert_eq!(buffer, [0xee; TABLES]);
}

#[test]
fn wrong_lengths_are_refused() {
    assert_eq!(refused(b"", &[]), Reason::WrongLengths);
    assert_eq!(refused(&TABLE.repeat(17), &[TABLE.len(); 17]), Reason::WrongLengths);
    assert_eq!(refused(TABLE, &[TABLE.len() - 1]), Reason::WrongLengths);
    assert_eq!(refused(TABLE, &[TABLE.len() + 1]), Reason::WrongLengths);
    assert_eq!(refused(TABLE, &[TABLE.len() + 1, usize::MAX]), Reason::WrongLengths);
}
