//! The worked tables of document 01 at each pace, and lent buffers.

use baseline::{Answer, Pace, report, row};

const PACES: [Pace; 3] = [Pace::Tick, Pace::Event, Pace::Tuned];

/// One graph: processors, rounds, period, and nodes as budget, level, after.
fn one(processors: u32, rounds: u32, period: u32, nodes: &[(u32, u32, &str)]) -> String {
    let mut text = format!("processors={processors}\nrounds={rounds}\ngraphs=1\n");
    text += &graph(period, 0, nodes);
    text
}

fn graph(period: u32, offset: u32, nodes: &[(u32, u32, &str)]) -> String {
    let mut text = format!("period={period}\noffset={offset}\nnodes={}\n", nodes.len());
    for (budget, level, after) in nodes {
        text += &format!("budget={budget}\nlevel={level}\nafter={after}\n");
    }
    text
}

/// The text answered, or the number and line of the refusal.
fn told(call: impl Fn(Pace, &mut [u8]) -> Answer) -> Result<String, (u32, u32)> {
    let [tick, event, tuned] = PACES.map(|pace| {
        let mut buffer = [0xee; 300];
        let answer = call(pace, &mut buffer);
        assert!(buffer[answer.length..].iter().all(|&byte| byte == 0xee));
        let text = String::from_utf8(buffer[..answer.length].to_vec()).expect("plain text");
        if answer.number == 0 { Ok(text) } else { Err((answer.number, answer.line)) }
    });
    assert_eq!(tick, event);
    assert_eq!(tick, tuned);
    tick
}

fn report_of(table: &str) -> Result<String, (u32, u32)> {
    told(|pace, buffer| report(pace, table.as_bytes(), buffer))
}

fn row_of(table: &str, instant: u64) -> Result<String, (u32, u32)> {
    told(|pace, buffer| row(pace, table.as_bytes(), instant, buffer).0)
}

fn answer(round: u32, ticks: u32, responses: &[u32]) -> Result<String, (u32, u32)> {
    let lines: String = responses.iter().map(|r| format!("response={r}\n")).collect();
    Ok(format!("answer=0\nround={round}\nticks={ticks}\n{lines}"))
}

#[test]
fn one_graph() {
    assert_eq!(report_of(&one(1, 64, 4, &[(1, 1, "none")])), answer(1, 4, &[1]));
    assert_eq!(report_of(&one(1, 64, 4, &[(1, 1, "none"), (1, 1, "1")])), answer(2, 8, &[6]));
    assert_eq!(report_of(&one(1, 1, 4, &[(1, 1, "none"), (1, 1, "1")])), Err((8, 0)));
    assert_eq!(report_of(&one(1, 64, 4, &[(2, 1, "none"), (2, 1, "1")])), answer(2, 8, &[8]));
    assert_eq!(report_of(&one(1, 64, 4, &[(3, 1, "none"), (2, 1, "1")])), Err((6, 0)));
    assert_eq!(report_of(&one(2, 64, 4, &[(4, 1, "none"), (4, 1, "1")])), answer(2, 8, &[8]));
    assert_eq!(report_of(&one(2, 64, 2, &[(3, 2, "none")])), answer(2, 4, &[3]));
    for rounds in [1, 46, 47, 64] {
        assert_eq!(report_of(&one(2, rounds, 2, &[(3, 1, "none")])), Err((12, 0)));
    }
    assert_eq!(report_of(&one(1, 64, 2, &[(3, 1, "none")])), Err((6, 0)));
    assert_eq!(report_of(&one(1, 64, 4, &[(4, 1, "none")])), answer(1, 4, &[4]));
    assert_eq!(report_of(&one(1, 64, 10_001, &[(1, 1, "none")])), Err((3, 4)));
    assert_eq!(report_of(""), Err((2, 1)));
}

#[test]
fn rows() {
    let table = one(1, 64, 4, &[(1, 1, "none"), (1, 1, "1")]);
    assert_eq!(row_of(&table, 1), Ok("run=1,2,1,0\n".into()));
    assert_eq!(row_of(&table, 5), Ok("run=1,2,2,1\n".into()));
    assert_eq!(row_of(&table, 2), Ok(String::new()));
    assert_eq!(row_of(&table, 8), Ok("run=1,1,3,3\n".into()));
    assert_eq!(row_of(&table, 4_000_000_000), Ok("run=1,1,1000000001,1000000001\n".into()));
    assert_eq!(row_of(&table, 4_000_000_001), Err((9, 0)));
    assert_eq!(row_of(&table, (1 << 32) + 1), Err((9, 0)));
    assert_eq!(row_of(&one(2, 47, 2, &[(3, 1, "none")]), 91), Err((12, 0)));
}

#[test]
fn two_graphs() {
    let two = |one: String, other: String| format!("processors=1\nrounds=64\ngraphs=2\n{one}{other}");
    let single = |period, offset, budget| graph(period, offset, &[(budget, 1, "none")]);
    assert_eq!(report_of(&two(single(4, 0, 1), single(4, 0, 1))), answer(1, 4, &[1, 2]));
    assert_eq!(report_of(&two(single(4, 0, 2), single(8, 1, 3))), answer(1, 9, &[2, 6]));
    assert_eq!(report_of(&two(single(10_000, 0, 1), single(6_667, 0, 1))), Err((5, 0)));
}

/// Nodes that all keep up, and still a backlog.
#[test]
fn backlog() {
    let pair = [(2, 1, "none"), (2, 1, "1")];
    let late = format!(
        "processors=2\nrounds=64\ngraphs=2\n{}{}",
        graph(3, 0, &pair),
        graph(546, 0, &[(364, 1, "none")])
    );
    assert_eq!(report_of(&late), Err((7, 0)));
    assert!(row_of(&late, 728).is_ok());
    assert_eq!(row_of(&late, 729), Err((9, 0)));
}

#[test]
fn short_buffers_are_refused_and_left() {
    let table = one(1, 64, 4, &[(1, 1, "none")]);
    let length = report_of(&table).expect("an answer").len();
    for pace in PACES {
        for short in 0..length {
            let mut buffer = vec![0xee; short];
            let answer = report(pace, table.as_bytes(), &mut buffer);
            assert_eq!(answer, Answer { number: 10, line: 0, column: 0, length: 0 });
            assert!(buffer.iter().all(|&byte| byte == 0xee));
        }
        let mut exact = vec![0xee; length];
        assert_eq!(
            report(pace, table.as_bytes(), &mut exact),
            Answer { number: 0, line: 0, column: 0, length }
        );
    }
}
