//! Where a text breaks, as the program text_graph says it.

use second::text_graph::{printed, PROGRAM_BYTES};

fn place(text: &[u8]) -> (usize, usize) {
    let line = printed(text);
    let numbers = line.strip_prefix("refused 22 line ").unwrap_or_else(|| panic!("not refused by 22: {line}"));
    let (line, column) = numbers.trim_end().split_once(" column ").expect("line and column");
    (line.parse().expect("a number"), column.parse().expect("a number"))
}

/// The text breaks at the byte below which the pointer's last one stands.
fn breaks_at(text: &str, pointer: &str) {
    assert_eq!(place(text.as_bytes()), (1, pointer.len()), "{text}");
}

#[test]
#[rustfmt::skip]
fn a_break_is_the_first_word_that_no_graph_goes_on_with() {
    breaks_at("[ (1, 0) x | ]",
              "         ^");
    breaks_at("[ (1, 5 # pink) | ]",
              "          ^");
    breaks_at("[ (1, 5x) | ]",
              "      ^");
    breaks_at("[ (1, empty:1) | ]",
              "           ^");
    breaks_at("[ (1, - -5) | ]",
              "        ^");
    breaks_at("[ | ] [",
              "      ^");
    breaks_at("[ (1 (r), 5) | ]",
              "      ^");
    breaks_at("[ (1, 5) <1, .5> | ]",
              "             ^");
    breaks_at("[ (1, 5) | (e, 1, 1) ]",
              "                   ^");
    breaks_at("[ (1, 5) / | ]",
              "         ^");
}

#[test]
fn lines_end_with_line_feeds_and_columns_are_bytes() {
    assert_eq!(place(b"[\n\n  x"), (3, 3));
    assert_eq!(place(b"[\r\rx"), (1, 4));
    assert_eq!(place(b"[\r\n\tx"), (2, 2));
    assert_eq!(place("[ /* \u{e4}\u{20ac} */ x".as_bytes()), (1, 15));
    assert_eq!(place(b"[ /*\n\n*/ x"), (3, 4));
    assert_eq!(place(b"[ // \xff\n x"), (2, 2));
    assert_eq!(place(&[b"[", &b" ".repeat(1_000)[..], b"x"].concat()), (1, 1_002));
}

#[test]
fn a_text_that_ends_too_early_breaks_at_its_end() {
    assert_eq!(place(b""), (1, 1));
    assert_eq!(place(b"[ (1"), (1, 5));
    assert_eq!(place(b"[ (1 "), (1, 6));
    assert_eq!(place(b"[ | \n"), (2, 1));
    assert_eq!(place(b"[ | // ]"), (1, 9));
    assert_eq!(place(b"[ | /* ] */"), (1, 12));
}

#[test]
fn a_comment_without_an_end_breaks_where_it_begins() {
    assert_eq!(place(b"/*"), (1, 1));
    assert_eq!(place(b"[|] /*/"), (1, 5));
    assert_eq!(place(b"[|]\n/* x"), (2, 1));
    assert_eq!(place(b"[|]\n/* x\n"), (2, 1));
    assert_eq!(place(b"[ x /* x"), (1, 3));
    assert_eq!(printed(b"[|] /**/"), "[\n|\n]\n");
}

#[test]
fn a_text_is_read_up_to_its_most_bytes() {
    let spaces = |count: usize| [&b"[|]"[..], &b" ".repeat(count - 3)].concat();
    assert_eq!(printed(&spaces(PROGRAM_BYTES)), "[\n|\n]\n");
    assert_eq!(printed(&spaces(PROGRAM_BYTES + 1)), "input refused\n");
    assert_eq!(PROGRAM_BYTES, 1 << 20);
}
