//! The report and the row through the C interface, by both engines, on one table of document 01.

use phalandrix::{Answer, REPORT_BYTES, ROW_BYTES, RowAnswer, plain_report, plain_row, report, row};

const TABLE: &[u8] = b"processors=1\nrounds=2\ngraphs=1\nperiod=4\noffset=0\nnodes=2\n\
    budget=1\nlevel=1\nafter=none\nbudget=1\nlevel=1\nafter=1\n";
const REPORT: &[u8] = b"answer=0\nround=2\nticks=8\nresponse=6\n";

#[test]
fn report_is_written_and_the_rest_left() {
    for call in [report, plain_report] {
        let mut buffer = [0xee; REPORT_BYTES];
        assert_eq!(call(TABLE, &mut buffer), Answer { number: 0, line: 0, column: 0, length: REPORT.len() });
        assert_eq!(&buffer[..REPORT.len()], REPORT);
        assert!(buffer[REPORT.len()..].iter().all(|&byte| byte == 0xee));
    }
}

#[test]
fn short_buffer_is_refused_and_left() {
    for call in [report, plain_report] {
        let mut buffer = [0xee; REPORT.len() - 1];
        assert_eq!(call(TABLE, &mut buffer), Answer { number: 10, line: 0, column: 0, length: 0 });
        assert!(buffer.iter().all(|&byte| byte == 0xee));
    }
}

#[test]
fn rows_and_refusals_come_through() {
    let shown = |walked, length| RowAnswer { number: 0, line: 0, column: 0, walked, length };
    let refused = RowAnswer { number: 9, line: 0, column: 0, walked: 0, length: 0 };
    for call in [row, plain_row] {
        let mut buffer = [0xee; ROW_BYTES];
        assert_eq!(call(TABLE, 5, &mut buffer), shown(5, 12));
        assert_eq!(&buffer[..12], b"run=1,2,2,1\n");
        assert_eq!(call(TABLE, 2, &mut buffer), shown(2, 0));
        assert_eq!(call(TABLE, 8, &mut buffer), shown(8, 12));
        assert_eq!(&buffer[..12], b"run=1,1,3,3\n");
        assert_eq!(call(TABLE, 4_000_000_000, &mut buffer), shown(8, 30));
        assert_eq!(&buffer[..30], b"run=1,1,1000000001,1000000001\n");
        assert_eq!(call(TABLE, 4_000_000_001, &mut buffer), refused);
        assert_eq!(call(TABLE, u64::MAX, &mut buffer), refused);
    }
}

/// An empty slice's pointer is dangling; the library must not read it.
#[test]
fn empty_table_and_empty_buffer() {
    for call in [report, plain_report] {
        assert_eq!(call(&[], &mut []), Answer { number: 2, line: 1, column: 1, length: 0 });
        assert_eq!(call(&[b'x'; 4097], &mut []), Answer { number: 1, line: 0, column: 0, length: 0 });
    }
    for call in [row, plain_row] {
        assert_eq!(call(TABLE, 2, &mut []).answer(), Answer { number: 0, line: 0, column: 0, length: 0 });
    }
}
