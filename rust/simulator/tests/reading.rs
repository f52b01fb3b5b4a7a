//! How tables are read: spelling, limits, cut lines, long numbers, lists.

mod common;
use common::*;
use simulator::{Reply, report, row};

/// Two graphs with every kind of line, each line passing.
const GOOD: &str = "processors=2\nrounds=64\ngraphs=2\nperiod=6\noffset=1\nnodes=3\n\
    budget=1\nlevel=1\nafter=none\nbudget=2\nlevel=2\nafter=1\nbudget=1\nlevel=4\nafter=1,2\n\
    period=12\noffset=0\nnodes=1\nbudget=3\nlevel=1\nafter=none\n";

/// Asserts a refusal of both calls, in whatever column.
fn refuses(table: &[u8], number: u32, line: u32) {
    for reply in [report(table), row(table, 0)] {
        let Reply::Refused { number: told, line: at, .. } = reply else { panic!("answered: {reply:?}") };
        assert_eq!((told, at), (number, line), "{}", String::from_utf8_lossy(table));
    }
}

/// GOOD with one of its lines, numbered from 1, put in place of the old one.
fn with_line(line: usize, text: &str) -> Vec<u8> {
    let mut lines: Vec<&str> = GOOD.lines().collect();
    lines[line - 1] = text;
    let mut table = lines.join("\n");
    table.push('\n');
    table.into_bytes()
}

#[test]
fn the_good_table_is_answered() {
    assert!(matches!(report(GOOD.as_bytes()), Reply::Text(_)));
}

#[test]
fn table_length_at_its_limit_and_past_it() {
    // 4,096 bytes are read, so the first line is judged; one more is not.
    refuses(&[b'x'; 4096], 2, 1);
    refuses(&[b'x'; 4097], 1, 0);
    let mut long = GOOD.as_bytes().to_vec();
    long.resize(4096, b'\n');
    refuses(&long, 2, GOOD.lines().count() as u32 + 1);
    long.push(b'\n');
    refuses(&long, 1, 0);
}

#[test]
fn each_line_cut_at_each_byte() {
    let mut start = 0;
    for (number, line) in (1..).zip(GOOD.lines()) {
        for cut in 0..=line.len() {
            refuses(&GOOD.as_bytes()[..start + cut], 2, number);
        }
        start += line.len() + 1;
    }
    assert_eq!(start, GOOD.len());
}

#[test]
fn each_line_missing_or_doubled() {
    let lines: Vec<&str> = GOOD.lines().collect();
    for index in 0..lines.len() {
        let mut missing = lines.clone();
        missing.remove(index);
        refuses((missing.join("\n") + "\n").as_bytes(), 2, index as u32 + 1);
        let mut doubled = lines.clone();
        doubled.insert(index, lines[index]);
        refuses((doubled.join("\n") + "\n").as_bytes(), 2, index as u32 + 2);
    }
}

#[test]
fn bytes_after_the_last_line() {
    let after = GOOD.lines().count() as u32 + 1;
    for more in ["\n", " ", "x", "after=none\n", "\0", "\r\n"] {
        refuses((GOOD.to_string() + more).as_bytes(), 2, after);
    }
}

#[test]
fn wrong_spellings_of_each_line() {
    for (number, line) in (1..).zip(GOOD.lines()) {
        let (key, value) = line.split_once('=').expect("key=value");
        let wrong = [
            format!("{key}="),
            format!("{key}=-1"),
            format!("{key}=+1"),
            format!("{key}= {value}"),
            format!("{key}={value} "),
            format!(" {key}={value}"),
            format!("{key} ={value}"),
            format!("{key}={value}\r"),
            format!("{key}={value}\0"),
            format!("{key}=\0"),
            format!("{key}=={value}"),
            format!("{key}{value}"),
            format!("x{key}={value}"),
            format!("{key}s={value}"),
            format!("{}={value}", key.to_uppercase()),
            format!("{key}=00"),
            format!("{key}=01"),
            format!("{key}=0{value}"),
            format!("{key}=1.0"),
            format!("{key}=0x1"),
            format!("{key}=1e1"),
            format!("{key}=one"),
            format!("{key}=None"),
            String::new(),
        ];
        for text in wrong {
            refuses(&with_line(number, &text), 2, number as u32);
        }
    }
}

#[test]
fn bytes_beyond_ascii_are_no_digits() {
    // An Arabic-Indic one, a lone continuation byte and 0xff.
    for tail in [&b"\xd9\xa1"[..], b"\x80", b"\xff", b"1\xff"] {
        let table = [b"processors=", tail, b"\n"].concat();
        refuses(&table, 2, 1);
    }
}

/// Number lines of GOOD with their limits: line, key, least, largest.
const NUMBERS: [(usize, &str, u32, u32); 8] = [
    (1, "processors", 1, 8),
    (2, "rounds", 1, 64),
    (3, "graphs", 1, 8),
    (4, "period", 1, 10_000),
    (5, "offset", 0, 10_000),
    (6, "nodes", 1, 16),
    (7, "budget", 1, 10_000),
    (8, "level", 1, 4),
];

#[test]
fn each_limit_at_its_ends_and_one_past() {
    for (line, key, least, largest) in NUMBERS {
        for passing in [least, largest] {
            let reply = report(&with_line(line, &format!("{key}={passing}")));
            let refused_there = matches!(reply, Reply::Refused { line: at, .. } if at == line as u32);
            assert!(!refused_there, "{key}={passing}: {reply:?}");
        }
        refuses(&with_line(line, &format!("{key}={}", largest + 1)), 3, line as u32);
        if least > 0 {
            refuses(&with_line(line, &format!("{key}={}", least - 1)), 3, line as u32);
        }
    }
}

/// Numbers that wrap into 1 or 2 at some width, and one of 4,000 digits.
fn long_numbers() -> Vec<String> {
    let mut numbers: Vec<String> = [
        "65536",
        "65537",
        "65538",
        "4294967296",
        "4294967297",
        "4294967298",
        "18446744073709551616",
        "18446744073709551617",
        "18446744073709551618",
        "340282366920938463463374607431768211456",
        "340282366920938463463374607431768211457",
        "340282366920938463463374607431768211458",
        "10000000000000000000000000000000000001",
    ]
    .map(String::from)
    .to_vec();
    numbers.push("9".repeat(4000));
    numbers.push("1".to_string() + &"0".repeat(2000) + "1");
    numbers
}

#[test]
fn long_numbers_do_not_wrap() {
    for long in long_numbers() {
        for (line, key, _, _) in NUMBERS {
            let table = with_line(line, &format!("{key}={long}"));
            if table.len() <= 4096 {
                refuses(&table, 3, line as u32);
            }
        }
    }
    // The 4,000 digits fit on the first lines of a table cut after them.
    refuses(format!("processors={}\n", "9".repeat(4000)).as_bytes(), 3, 1);
    refuses(format!("processors=1\nrounds={}\n", "1".repeat(4000)).as_bytes(), 3, 2);
    refuses(format!("processors={}", "9".repeat(4000)).as_bytes(), 2, 1);
    refuses(format!("processors={}\n", "0".repeat(4000)).as_bytes(), 2, 1);
}

#[test]
fn after_lists_spelled_wrong() {
    for list in
        ["1,", ",1", "1,,2", "1, 2", "1;2", "1,02", "none,1", "1,none", "none,", "nonee", "non", "1 ,2"]
    {
        refuses(&with_line(15, &format!("after={list}")), 2, 15);
    }
}

#[test]
fn after_lists_against_the_rules() {
    let long = "9".repeat(300);
    // Node 3 of graph 1: none, zero, itself, later, falling, repeated, long.
    for list in ["none", "0", "3", "4", "0,1", "2,1", "1,1", "1,2,3", "1,2,2", "18446744073709551617", &long]
    {
        refuses(&with_line(15, &format!("after={list}")), 4, 15);
    }
    // Node 1 has none, and any number there breaks the rules.
    for list in ["0", "1", "2", "1,2", "16", &long] {
        refuses(&with_line(9, &format!("after={list}")), 4, 9);
    }
    // Node 2 of graph 1 has only node 1 before it.
    for list in ["none", "0", "2", "1,2", "3"] {
        refuses(&with_line(12, &format!("after={list}")), 4, 12);
    }
}

#[test]
fn node_without_successor_is_refused_on_the_graphs_last_line() {
    // Node 2 of graph 1 stands in no list.
    refuses(&with_line(15, "after=1"), 4, 15);
    // Node 1 then stands in node 2's list only, which is enough.
    assert!(matches!(report(&with_line(15, "after=2")), Reply::Text(_)));
    // It is judged before the next graph's lines and before trailing bytes.
    let mut cut = with_line(15, "after=1");
    let end = cut.windows(3).position(|w| w == b"=12").expect("graph 2's period");
    cut.truncate(end);
    refuses(&cut, 4, 15);
    // A misspelled list on that line is judged first, as 2.
    refuses(&with_line(15, "after=1,"), 2, 15);
}

/// Graphs of these many nodes, all with budget 1 in period 100.
fn graphs_of(nodes: &[usize]) -> Vec<u8> {
    bytes(8, 64, nodes.iter().map(|&n| chain(100, 0, &vec![1; n])).collect())
}

#[test]
fn node_totals() {
    assert!(matches!(report(&graphs_of(&[16, 16])), Reply::Text(_)));
    assert!(matches!(report(&graphs_of(&[4; 8])), Reply::Text(_)));
    // The 33rd node: graph 3 is announced on line 3 + 2 x (3 + 48) + 3.
    refuses(&graphs_of(&[16, 16, 1]), 3, 108);
    refuses(&graphs_of(&[16, 15, 2]), 3, 105);
    refuses(&graphs_of(&[17]), 3, 6);
}

#[test]
fn spelling_goes_before_limits_and_lines_in_order() {
    refuses(b"processors=9", 2, 1);
    refuses(b"processors=9\nrounds=x\n", 3, 1);
    refuses(b"processors=1\nrounds=x\ngraphs=9\n", 2, 2);
    refuses(b"processors=1\nrounds=0\ngraphs=x\n", 3, 2);
    refuses(b"\n", 2, 1);
    refuses(b"processors=1\n\n", 2, 2);
}

#[test]
fn fifteen_predecessors() {
    let all: Vec<u32> = (1..16).collect();
    let mut graph = chain(1000, 0, &[1; 16]);
    graph.nodes[15].after = all.clone();
    assert!(matches!(report(&bytes(8, 64, vec![graph.clone()])), Reply::Text(_)));
    // Each node after every earlier one.
    for (index, node) in graph.nodes.iter_mut().enumerate() {
        node.after = all[..index].to_vec();
    }
    assert!(matches!(report(&bytes(8, 64, vec![graph])), Reply::Text(_)));
}
