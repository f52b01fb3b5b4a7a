//! Salvage through the C interface.

use phalandrix::{FIXES_BYTES, Kind, Reason, SALVAGE_BYTES, Salvaged, mended, report_of, salvage};

/// Document 01's 12-line table as another editor may leave it.
const SPOILED: &[u8] = b"processors=01\r\nrounds=2 \r\n\r\ngraphs=1\nperiod=4\noffset=00\nnodes=2\n\
    budget=1\nlevel=1\nafter=none\nbudget=1\nlevel=1\nafter=01";
const TEXT: &[u8] = b"processors=1\nrounds=2\ngraphs=1\nperiod=4\noffset=0\nnodes=2\n\
    budget=1\nlevel=1\nafter=none\nbudget=1\nlevel=1\nafter=1\n";
const LIST: &str = "fix=1,1\nfix=1,4\nfix=2,1\nfix=2,2\nfix=3,1\nfix=3,3\nfix=6,4\nfix=13,4\nfix=13,5\n";

fn refused(number: u32) -> Salvaged {
    Salvaged { number, line: 0, column: 0, text_length: 0, list_length: 0 }
}

#[test]
fn both_outputs_are_written_and_the_rest_left() {
    let (mut text, mut list) = (vec![0xee; SALVAGE_BYTES], vec![0xee; FIXES_BYTES]);
    let answer = salvage(SPOILED, &mut text, &mut list);
    let (text_length, list_length) = (TEXT.len(), LIST.len());
    assert_eq!(answer, Salvaged { number: 0, line: 0, column: 0, text_length, list_length });
    assert_eq!((&text[..text_length], &list[..list_length]), (TEXT, LIST.as_bytes()));
    assert!(text[text_length..].iter().chain(&list[list_length..]).all(|&byte| byte == 0xee));
}

#[test]
fn one_short_buffer_leaves_both() {
    for (room, rows) in [(TEXT.len() - 1, LIST.len()), (TEXT.len(), LIST.len() - 1), (0, 0)] {
        let (mut text, mut list) = (vec![0xee; room], vec![0xee; rows]);
        assert_eq!(salvage(SPOILED, &mut text, &mut list), refused(10));
        assert!(text.iter().chain(&list).all(|&byte| byte == 0xee));
    }
}

#[test]
fn too_long_before_or_after() {
    assert_eq!(salvage(&[b'\r'; 4097], &mut [], &mut []), refused(1));
    assert_eq!(salvage(&[b'x'; 4096], &mut [], &mut []), refused(1));
    assert_eq!(salvage(&[], &mut [], &mut []), refused(0));
}

#[test]
fn mended_as_values() {
    let (mut text, mut list) = ([0; SALVAGE_BYTES], [0; FIXES_BYTES]);
    let first = mended(SPOILED, &mut text, &mut list).expect("it can be mended");
    assert_eq!((first.text(), first.list()), (TEXT, LIST));
    assert_eq!(report_of(first.text()).expect("a table").responses().collect::<Vec<_>>(), [6]);
    let last = first.fixes().last().expect("some");
    assert_eq!((last.line, last.kind), (13, Kind::LineFeed));
    assert_eq!(first.fixes().map(|fix| fix.kind as u32).collect::<Vec<_>>(), [1, 4, 1, 2, 1, 3, 4, 4, 5]);
    let (mut again, mut none) = ([0; SALVAGE_BYTES], [0; 0]);
    let second = mended(first.text(), &mut again, &mut none).expect("nothing is to be mended");
    assert_eq!((second.text(), second.fixes().count()), (TEXT, 0));
    assert_eq!(mended(b"a", &mut [], &mut [0; 9]).unwrap_err().reason, Reason::ShortBuffer);
}

/// As many lines of a list as bytes can make: empty lines, and a last one that has only a carriage return.
#[test]
fn the_longest_list_fits() {
    let given: Vec<u8> = vec![b'\n'; 4095].into_iter().chain([b'\r']).collect();
    let (mut text, mut list) = ([0; SALVAGE_BYTES], [0; FIXES_BYTES]);
    let all = mended(&given, &mut text, &mut list).expect("there is room");
    assert_eq!((all.text().len(), all.fixes().count()), (0, 4097));
    assert!(all.list().len() > 43_000, "{}", all.list().len());
}
