//! The worked cases of R-1 on the second simulator.

use simulator::{Answer, Batch, batch};

const A: &str =
    "processors=1\nrounds=64\ngraphs=1\nperiod=4\noffset=0\nnodes=1\nbudget=1\nlevel=1\nafter=none\n";
const B: &str = "processors=1\nrounds=2\ngraphs=1\nperiod=4\noffset=0\nnodes=2\nbudget=1\nlevel=1\nafter=none\n\
                 budget=1\nlevel=1\nafter=1\n";
const SAYS_A: &str = "answer=0\nround=1\nticks=4\nresponse=1\n";
const SAYS_B: &str = "answer=0\nround=2\nticks=8\nresponse=6\n";

fn text(length: usize) -> Answer {
    Answer { number: 0, line: 0, column: 0, length }
}

fn refused(number: u32, line: u32, column: u32) -> Answer {
    Answer { number, line, column, length: 0 }
}

/// The answers and the whole buffer, `.` before the call.
fn gives(tables: &[&str], room: usize, answers: &[Answer], left: &str) {
    let lengths: Vec<usize> = tables.iter().map(|table| table.len()).collect();
    let mut buffer = vec![b'.'; room];
    let got = batch(tables.concat().as_bytes(), &lengths, &mut buffer);
    assert_eq!(got, Batch { number: 0, line: 0, column: 0, answers: answers.to_vec() });
    assert_eq!(String::from_utf8(buffer).unwrap(), left);
}

fn refuses(bytes: &str, lengths: &[usize]) {
    let mut buffer = [b'.'; 9];
    let got = batch(bytes.as_bytes(), lengths, &mut buffer);
    assert_eq!(got, Batch { number: 11, line: 0, column: 0, answers: vec![] });
    assert_eq!(buffer, [b'.'; 9]);
}

#[test]
fn shares_are_equal_and_the_remainder_is_unchanged() {
    gives(&[A, B], 75, &[text(36), text(36)], &format!("{SAYS_A}.{SAYS_B}.."));
    gives(&[A, B], 73, &[text(36), text(36)], &format!("{SAYS_A}{SAYS_B}."));
    gives(&[A, B], 71, &[refused(10, 0, 0), refused(10, 0, 0)], &".".repeat(71));
}

#[test]
fn a_refused_table_leaves_the_others() {
    gives(
        &[A, "", B],
        110,
        &[text(36), refused(2, 1, 1), text(36)],
        &format!("{SAYS_A}{}{SAYS_B}..", ".".repeat(36)),
    );
    let long = "\n".repeat(4097);
    gives(&[&long, A], 72, &[refused(1, 0, 0), text(36)], &format!("{}{SAYS_A}", ".".repeat(36)));
}

#[test]
fn wrong_lengths_are_11() {
    refuses("", &[]);
    refuses(&A.repeat(17), &[A.len(); 17]);
    refuses(A, &[A.len() - 1]);
    refuses(A, &[A.len() + 1]);
    refuses(A, &[A.len() + 1, usize::MAX]);
}
