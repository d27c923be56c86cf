//! `compare`: two recordings of one run.

mod common;

use common::{gutkavu, shell, with_input, Scratch};
use serde_json::json;

const ARRAY: &str = "examples/turn-array.capture";
const MODEL: &str = "examples/turn-model.capture";

#[test]
fn the_first_cycle_that_differs() {
    let ran = gutkavu(&["compare", "-r", "8", ARRAY, MODEL]);
    let expected = "cycles in both 5, first that differs 4, in r2\n\
        examples/turn-array.capture:3: 4,1,0,4294967096,401,4294966996,300,1,1,10\n\
        examples/turn-model.capture:5: 4,1,0,4294967096,400,4294966996,300,1,1,10\n";
    assert_eq!((ran.status, &ran.out[..], &ran.err[..]), (1, expected, ""));
    let ran = gutkavu(&["compare", "-r", "8", ARRAY, MODEL, "--json"]);
    let lines = json!([
        {"line": 3, "text": "4,1,0,4294967096,401,4294966996,300,1,1,10"},
        {"line": 5, "text": "4,1,0,4294967096,400,4294966996,300,1,1,10"},
    ]);
    let differs = json!({"cycle": 4, "lines": lines, "fields": ["r2"]});
    let answer = json!({"first": ARRAY, "second": MODEL, "shared": 5, "differs": differs});
    assert_eq!((ran.status, ran.json()), (1, vec![answer]));
}

#[test]
fn recordings_that_agree() {
    for (first, shared) in [(&b"0,0,7\n2,1,8\n"[..], 2), (b"1,9,9\n", 0), (b"", 0)] {
        let folder = Scratch::new("agree");
        let second = folder.file("second", b"0,0,7\n2,1,8\n4,1,9\n");
        let ran = with_input(&["compare", "-r", "1", "-", &second], first);
        assert_eq!(ran.answer(), format!("cycles in both {shared}, none differs\n"));
        let answer = &with_input(&["compare", "-r", "1", "-", &second, "--json"], first).json()[0];
        assert_eq!((&answer["shared"], &answer["differs"]), (&json!(shared), &json!(null)));
    }
}

/// State and several registers, in a cycle whose number begins another's.
#[test]
fn every_field_that_differs_is_named() {
    let folder = Scratch::new("fields");
    let first = folder.file("first", b"1,0,5,6\n10,0,5,6\n100,1,5,6\n");
    let second = folder.file("second", b"10,2,5,7\n100,1,5,6\n");
    let ran = gutkavu(&["compare", "-r", "2", &first, &second]);
    let expected = format!(
        "cycles in both 2, first that differs 10, in state, r1\n{first}:2: 10,0,5,6\n{second}:1: 10,2,5,7\n"
    );
    assert_eq!((ran.status, ran.out), (1, expected));
}

#[test]
fn refusals() {
    let folder = Scratch::new("recordings");
    let form = folder.file("form", b"0,0,1\n1,0,01\n");
    let order = folder.file("order", b"0,0,1\n2,0,1\n2,0,1\n");
    let cut = folder.file("cut", b"0,0,1");
    let form_said = "a line is cycle,state and 1 words, parted by commas (refusal 17)";
    for (first, second, registers, message) in [
        (&form, &order, "1", format!("{form}:2: {form_said}\n    1,0,01\n")),
        (&order, &form, "1", format!("{order}:3: the cycle is not above that of the line before (refusal 18)\n    2,0,1\n")),
        (&cut, &order, "1", format!("{cut}:1: {form_said}\n    0,0,1\n")),
        (&form, &order, "0", format!("{form}: a recording has 1 to 16 registers, not 0 (refusal 17)\n")),
        (&form, &order, "17", format!("{form}: a recording has 1 to 16 registers, not 17 (refusal 17)\n")),
    ] {
        assert_eq!(gutkavu(&["compare", "-r", registers, first, second]).message(1), message);
        let number = gutkavu(&["compare", "-r", registers, first, second, "--json"]).refusal();
        assert!(message.contains(&format!("(refusal {number})\n")), "{message}");
    }
}

#[test]
fn wrong_uses() {
    let said = gutkavu(&["compare", "-r", "8", "-", "-"]).message(2);
    assert_eq!(said, "gutkavu: standard input can be only one of the files\n");
    for arguments in [
        &["compare", ARRAY, MODEL][..],
        &["compare", "-r", "8", ARRAY],
        &["compare", "-r", "8", ARRAY, "nothing"],
    ] {
        gutkavu(arguments).message(2);
    }
}

/// A recording may have any length.
#[test]
fn long_recordings() {
    let folder = Scratch::new("long");
    let lines = |changed: u32| {
        let word = |cycle: u32| if cycle == changed { 1 } else { cycle % 7 };
        (0..200_000).map(|cycle| format!("{cycle},0,{}\n", word(cycle))).collect::<String>()
    };
    let first = folder.file("first", lines(199_999).as_bytes());
    folder.file("second", lines(0).as_bytes());
    let ran = shell(&format!("gutkavu compare -r 1 {first} second | head -n 1"), &folder.0);
    assert_eq!(ran.out, "cycles in both 200000, first that differs 0, in r0\n");
}
