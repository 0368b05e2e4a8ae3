//! The listed record and its print.

use reference::player::print;
use reference::record::{listing, write_record, BOARD, COMPACT};

const PRINT: &str = "\
sources 4 events 10
0 2 0 0
1 2 0 0
2 0 0 0
3 5 0 15
4 9 0 0
5 5 8 0
6 6 5 0
7 8 0 19
8 9 0 0
9 8 0 0
end open 0 level 0 margin 5
";

#[test]
fn the_listing_prints_its_text() {
    let bytes = write_record(&listing()).unwrap();
    assert_eq!(bytes.len(), 88);
    for limits in [BOARD, COMPACT] {
        assert_eq!(print(&bytes, limits), PRINT);
    }
}

#[test]
fn a_bad_record_prints_one_line() {
    let mut bytes = write_record(&listing()).unwrap();
    bytes.push(0);
    assert_eq!(print(&bytes, BOARD), "refused 4 at 0\n");
}

#[test]
fn no_events_print_two_lines() {
    let bytes = [0, 0, 0, 0, 2, 0, 0, 0];
    assert_eq!(
        print(&bytes, BOARD),
        "sources 2 events 0\nend open 0 level 0 margin 0\n"
    );
}

#[test]
fn a_margin_may_be_negative() {
    let head = (4 << 16 | 0xBC9u32).to_le_bytes();
    let mut bytes = vec![1, 0, 0, 0, 255, 0, 0, 0];
    bytes.extend(head);
    bytes.extend(15u32.to_le_bytes());
    let text = "sources 255 events 1\n0 4 0 0\nend open 0 level 0 margin -15\n";
    assert_eq!(print(&bytes, BOARD), text);
}
