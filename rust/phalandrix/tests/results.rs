//! The calls that give an answer or a refusal as a value.

use phalandrix::{Reason, VERSION, report_of, row_at};
use std::error::Error;

const TABLE: &[u8] = b"processors=1\nrounds=2\ngraphs=1\nperiod=4\noffset=0\nnodes=2\n\
    budget=1\nlevel=1\nafter=none\nbudget=1\nlevel=1\nafter=1\n";

/// Document 01's last table: graph 1 in every 4 ticks, graph 2 in every 8 from 1 on.
const TWO: &[u8] =
    b"processors=1\nrounds=64\ngraphs=2\nperiod=4\noffset=0\nnodes=1\nbudget=2\nlevel=1\nafter=none\n\
    period=8\noffset=1\nnodes=1\nbudget=3\nlevel=1\nafter=none\n";

#[test]
fn report_as_values() -> Result<(), Box<dyn Error>> {
    let report = report_of(TWO)?;
    assert_eq!((report.round(), report.ticks()), (1, 9));
    assert_eq!(report.responses().collect::<Vec<_>>(), [2, 6]);
    assert_eq!(report.as_str(), "answer=0\nround=1\nticks=9\nresponse=2\nresponse=6\n");
    assert_eq!(report.to_string(), report.as_str());
    Ok(())
}

#[test]
fn row_as_values() -> Result<(), Box<dyn Error>> {
    let row = row_at(TABLE, 1)?;
    assert_eq!(row.as_str(), "run=1,2,1,0\n");
    assert_eq!(row.runs().map(|run| (run.server_job, run.invocation)).collect::<Vec<_>>(), [(1, None)]);
    assert_eq!(row_at(TABLE, 5)?.runs().next().and_then(|run| run.invocation), Some(1));
    assert_eq!(row_at(TABLE, 2)?.runs().count(), 0);
    Ok(())
}

#[test]
fn refusals_as_values() {
    let refusal = report_of(b"processors=1\nrounds=0\n").unwrap_err();
    assert_eq!((refusal.reason, refusal.line, refusal.column), (Reason::OutsideLimits, 2, 8));
    assert!(
        refusal.to_string().starts_with("line 2, column 8: refusal 3: a number is outside its limits"),
        "{refusal}"
    );
    let refusal = row_at(TABLE, 4_000_000_001).unwrap_err();
    assert_eq!((refusal.reason, refusal.line, refusal.column), (Reason::PastTheStop, 0, 0));
    assert!(refusal.to_string().starts_with("refusal 9: the instant asked is"), "{refusal}");
}

/// The line's text and a mark under the column, where there is such a line.
#[test]
fn refusals_beside_their_table() {
    let shown = |table: &[u8]| report_of(table).unwrap_err().in_table(table).to_string();
    assert!(shown(b"processors=1\nrounds=02\n").ends_with("\n  rounds=02\n          ^"));
    assert!(shown(b"processors=1\nrounds\0=2\n").ends_with("\n  rounds?=2\n        ^"));
    assert!(shown(b"processors=1\nrounds").ends_with("\n  rounds\n        ^"));
    assert!(!shown(b"processors=1\n").contains('^'), "an absent line");
    assert!(!shown(&[b'x'; 5000]).contains('^'), "no line's fault");
    let long = [&b"processors="[..], &[b'1'; 100], b"x\n"].concat();
    assert!(shown(&long).ends_with(&format!("\n  {}x\n  {}^", "1".repeat(79), " ".repeat(79))));
}

/// The list that the build script made of the header's.
#[test]
fn reasons_are_in_the_order_of_their_numbers() {
    assert!(Reason::ALL.len() >= 11);
    let mut before = 0;
    for &reason in Reason::ALL {
        assert!(reason.number() > before, "{reason:?}");
        before = reason.number();
        assert_eq!(Reason::of_number(reason.number()), Some(reason));
        assert!(reason.sentence().len() > 20, "{reason:?}");
    }
    assert_eq!(Reason::of_number(0), None);
    assert_eq!(Reason::of_number(before + 1), None);
}

/// Document 02, R-2: 3 ticks in every 2 and no overlap.
#[test]
fn a_node_that_cannot_keep_up() {
    let table =
        b"processors=2\nrounds=64\ngraphs=1\nperiod=2\noffset=0\nnodes=1\nbudget=3\nlevel=1\nafter=none\n";
    for refusal in [report_of(table).unwrap_err(), row_at(table, 0).unwrap_err()] {
        assert_eq!((refusal.reason, refusal.reason.number(), refusal.line), (Reason::CannotKeepUp, 12, 0));
        assert!(refusal.to_string().starts_with("refusal 12: a node can never keep up"), "{refusal}");
    }
}

/// The header is the home of the version.
#[test]
fn version_is_that_of_the_header() {
    assert_eq!(VERSION, env!("CARGO_PKG_VERSION"));
}
