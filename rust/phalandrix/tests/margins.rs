//! Margins through the C interface.

use phalandrix::{MARGIN_BYTES, MarginAnswer, MarginRefusal, Reason, margin, margins_of};

const TABLE: &[u8] = b"processors=1\nrounds=64\ngraphs=1\nperiod=4\noffset=0\nnodes=2\n\
    budget=1\nlevel=1\nafter=none\nbudget=1\nlevel=1\nafter=1\n";
const TEXT: &str = "answer=0\nround=2\nticks=8\nresponse=6\nmargin=-1\n";

fn refused(number: u32, line: u32, column: u32, in_limits: u32) -> MarginAnswer {
    MarginAnswer { number, line, column, in_limits, length: 0 }
}

#[test]
fn the_text_is_written_and_the_rest_left() {
    let mut buffer = [0xee; MARGIN_BYTES];
    let answer = margin(TABLE, b"limit=5\n", &mut buffer);
    assert_eq!(answer, MarginAnswer { number: 0, line: 0, column: 0, in_limits: 0, length: TEXT.len() });
    assert_eq!(&buffer[..TEXT.len()], TEXT.as_bytes());
    assert!(buffer[TEXT.len()..].iter().all(|&byte| byte == 0xee));
}

#[test]
fn refusals_tell_their_text_and_leave_the_buffer() {
    let mut buffer = [0xee; MARGIN_BYTES];
    assert_eq!(margin(TABLE, b"", &mut buffer), refused(2, 1, 1, 1));
    assert_eq!(margin(TABLE, b"limit=2000001\n", &mut buffer), refused(3, 1, 7, 1));
    assert_eq!(margin(TABLE, &[b'\n'; 4097], &mut buffer), refused(1, 0, 0, 1));
    assert_eq!(margin(b"", b"", &mut buffer), refused(2, 1, 1, 0));
    assert_eq!(margin(TABLE, b"limit=5\n", &mut buffer[..TEXT.len() - 1]), refused(10, 0, 0, 0));
    assert!(buffer.iter().all(|&byte| byte == 0xee));
}

#[test]
fn margins_as_values() {
    let margins = margins_of(TABLE, b"limit=5\n").expect("margins");
    assert_eq!(margins.to_string(), TEXT);
    assert_eq!(
        (margins.responses().collect::<Vec<_>>(), margins.margins().collect::<Vec<_>>()),
        (vec![6], vec![-1])
    );
    let MarginRefusal::Limits(refusal) = margins_of(TABLE, b"limit=x\n").unwrap_err() else {
        panic!("of the limits")
    };
    assert_eq!((refusal.reason, refusal.line, refusal.column), (Reason::Misspelled, 1, 7));
    let of_table = margins_of(b"x", b"").unwrap_err();
    assert!(matches!(of_table, MarginRefusal::Table(_)), "{of_table}");
}
