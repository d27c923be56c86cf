//! Tests of reading words.

use super::*;

fn all(text: &str) -> Vec<u32> {
    words(text.as_bytes(), usize::MAX).expect("words")
}

fn wrong(text: &[u8]) -> (u64, String) {
    match words(text, usize::MAX).expect_err("no words") {
        Wrong::Line(line, message) => (line, message),
        Wrong::Unreadable(error) => panic!("{error}"),
    }
}

#[test]
fn what_parts_words() {
    for text in ["", "\n", " \r\n\t\n"] {
        assert!(all(text).is_empty(), "{text:?}");
    }
    for text in ["5,6,7", "5 6 7\n", "5\n6\n7\n", "5, 6,\n7,\n", "5\r\n6 ,7\r\n", "\n\n5\t6  7,"] {
        assert_eq!(all(text), [5, 6, 7], "{text:?}");
    }
}

#[test]
fn words_at_the_ends() {
    let ends = [0x8000_0000, u32::MAX, u32::MAX, 0];
    assert_eq!(all("-2147483648 -1 4294967295 0"), ends);
}

#[test]
fn what_is_no_word() {
    let range = "is no number from -2147483648 to 4294967295";
    assert_eq!(wrong(b"1 2\n\n3 four 5\n"), (3, format!("'four' {range}")));
    assert_eq!(wrong(b"1,4294967296"), (1, format!("'4294967296' {range}")));
    assert_eq!(wrong(b"-2147483649\n"), (1, format!("'-2147483649' {range}")));
    assert_eq!(wrong(b"7\n\xff\n"), (2, format!("'\\xff' {range}")));
    assert_eq!(wrong(b"0x10"), (1, format!("'0x10' {range}")));
    assert_eq!(wrong(b"1;2"), (1, format!("'1;2' {range}")));
}

/// A word that is missing would put the later ones into other cycles.
#[test]
fn a_word_that_is_missing() {
    let missing = String::from("there is no word before a comma");
    for (text, line) in [(",5", 1), ("5,,6", 1), ("5,\n,6", 2), ("\n , 5", 2)] {
        assert_eq!(wrong(text.as_bytes()), (line, missing.clone()), "{text:?}");
    }
}

#[test]
fn no_more_than_asked_for() {
    assert_eq!(words(&b"5 6 x"[..], 2).expect("words"), [5, 6]);
    assert!(words(&b"5 6 7"[..], 0).expect("words").is_empty());
    assert_eq!(words(&b"5"[..], 1).expect("words"), [5]);
}

/// A number without an end is none.
#[test]
fn input_without_an_end() {
    assert!(matches!(words(io::repeat(b'5'), 9), Err(Wrong::Line(1, _))));
}

#[test]
fn many() {
    let text: String = (0..100_000).map(|word| format!("{word}\n")).collect();
    assert_eq!(all(&text), (0..100_000).collect::<Vec<u32>>());
}
