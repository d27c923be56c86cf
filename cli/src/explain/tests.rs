//! Explanations of known texts, word by word.

mod damaged;

use super::{explain, forms};
use gutkavu::{Graph, ReadRefusal};

/// The refusal of a text, its message, and its mark: `^` below each marked byte of the line, `|`
/// where the mark is between bytes, nothing where there is none.
fn explained(text: &[u8]) -> (u32, u32, String, String) {
    let refused: ReadRefusal = Graph::read(text).expect_err("a text that is refused");
    let explanation = explain(text, refused);
    let mark = explanation.span.map_or(String::new(), |span| match span.is_empty() {
        true => " ".repeat(span.start) + "|",
        false => " ".repeat(span.start) + &"^".repeat(span.len()),
    });
    (refused.number(), refused.line(), explanation.message, mark)
}

/// Lines of no form, in a block of a graph with B = 1 and R = 2.
const NO_FORM: [(&str, &str, &str); 66] = [
    ("", "the line is empty", ""),
    ("set,0,1\r", "a carriage return: lines end in a line feed alone", "       ^"),
    ("\r", "a carriage return: lines end in a line feed alone", "^"),
    ("goto 0", "a space: fields are parted by commas alone", "    ^"),
    (" halt", "a space: fields are parted by commas alone", "^"),
    ("halt\t", "a tab: fields are parted by commas alone", "    ^"),
    ("Halt", "an upper-case letter `H`: words are in lower case", "^"),
    ("ite,eQ,0,0,0,0", "an upper-case letter `Q`: words are in lower case", "     ^"),
    ("halt # done", "a space: fields are parted by commas alone", "    ^"),
    ("halt#", "a graph text has no character `#`", "    ^"),
    ("\"halt\"", "a graph text has no character `\"`", "^"),
    ("set,0,+1", "a graph text has no character `+`", "      ^"),
    ("set,0,1_000", "a graph text has no character `_`", "       ^"),
    ("set,0,1.5", "a graph text has no character `.`", "       ^"),
    ("set,0,é", "a graph text has no character U+00E9", "      ^^"),
    ("set,0,−200", "a minus is written `-`, not U+2212", "      ^^^"),
    ("set,0,–1", "a minus is written `-`, not U+2013", "      ^^^"),
    ("\u{feff}halt", "a byte order mark: a graph text has none", "^^^"),
    ("halt\0", "a graph text has no byte 0x00", "    ^"),
    ("halt\x1b[0m", "a graph text has no byte 0x1b", "    ^"),
    ("halt\u{7f}", "a graph text has no byte 0x7f", "    ^"),
    ("gota,0", "unknown word `gota`: did you mean `goto`?", "^^^^"),
    ("hlt", "unknown word `hlt`: did you mean `halt`?", "^^^"),
    ("blokc,0", "unknown word `blokc`: did you mean `block`?", "^^^^^"),
    ("xro,0,0,0", "unknown word `xro`: did you mean `xor`?", "^^^"),
    ("inn,0", "unknown word `inn`: did you mean `in`?", "^^^"),
    ("sr,0,0,0", "unknown word `sr`: did you mean `shr` or `sar`?", "^^"),
    ("mul,0,0,0", "unknown word `mul`", "^^^"),
    ("i,0", "unknown word `i`", "^"),
    ("3,0,0,0", "unknown word `3`", "^"),
    (
        "haltandcatchfirehaltandcatchfire",
        "unknown word `haltandcatchfirehaltandc...`",
        "^^^^^^^^^^^^^^^^^^^^^^^^^^^^^^^^",
    ),
    ("eq,0,0,0", "`eq` is a comparison: it stands in `ite` alone", "^^"),
    (",0", "an empty field: a line begins with a word", "|"),
    ("set,0", "`set` is written set,d,literal", "     |"),
    ("set,0,1,2", "`set` is written set,d,literal", "       ^^"),
    ("add,0,0", "`add` is written add,d,a,b", "       |"),
    ("sx,0,0,0", "`sx` is written sx,d,a", "      ^^"),
    ("in", "`in` is written in,d", "  |"),
    ("goto,0,", "`goto` is written goto,t", "      ^"),
    ("ite,eq,0,0,0", "`ite` is written ite,comparison,a,b,t,f", "            |"),
    ("graph,1", "`graph` is written graph,B,R", "       |"),
    ("block", "`block` is written block,n", "     |"),
    ("halt,", "`halt` stands alone", "    ^"),
    ("halt,0,1", "`halt` stands alone", "    ^^^^"),
    ("goto,", "an empty field: `goto` is written goto,t", "     |"),
    ("copy,,0", "an empty field: `copy` is written copy,d,a", "     |"),
    ("goto,x", "`x` is no number", "     ^"),
    ("set,0,0x10", "`0x10` is no number", "      ^^^^"),
    ("set,0,-", "`-` is no number", "      ^"),
    ("set,0,--1", "`--1` is no number", "      ^^^"),
    ("copy,0,r1", "`r1` is no number: register 1 is written 1", "       ^^"),
    ("goto,r1", "`r1` is no number", "     ^^"),
    ("copy,0,-1", "`-1` is negative: only the literal of `set` may be", "       ^^"),
    ("copy,00,0", "`00` has a leading zero", "     ^^"),
    ("set,0,-01", "`-01` has a leading zero", "      ^^^"),
    ("set,0,-0", "`-0` is written 0", "      ^^"),
    ("copy,-0,0", "`-0` is written 0", "     ^^"),
    ("in,256", "256 is above 255, the highest number", "   ^^^"),
    (
        "ite,eq,0,0,0,4294967296",
        "4294967296 is above 255, the highest number",
        "             ^^^^^^^^^^",
    ),
    (
        "set,0,2147483648",
        "literal 2147483648 is above 2147483647: the same word is written -2147483648",
        "      ^^^^^^^^^^",
    ),
    ("set,0,4294967296", "literal 4294967296 is above 2147483647", "      ^^^^^^^^^^"),
    ("set,0,-2147483649", "literal -2147483649 is below -2147483648", "      ^^^^^^^^^^^"),
    ("ite,le,0,0,0,0", "unknown comparison `le`: swap the registers and write `ge`", "    ^^"),
    ("ite,neq,0,0,0,0", "unknown comparison `neq`: did you mean `eq` or `ne`?", "    ^^^"),
    (
        "ite,add,0,0,0,0",
        "unknown comparison `add`: the comparisons are eq, ne, lt, ge, ltu, geu",
        "    ^^^",
    ),
    ("ite,,0,0,0,0", "an empty field: `ite` is written ite,comparison,a,b,t,f", "    |"),
];

#[test]
fn lines_of_no_form() {
    for (line, message, mark) in NO_FORM {
        let text = format!("graph,1,2\nblock,0\n{line}\nhalt\n");
        let expected = (2, 3, message.to_string(), mark.to_string());
        assert_eq!(explained(text.as_bytes()), expected, "{line:?}");
    }
}

/// A text, the number and the line of its refusal, message and mark.
const TEXTS: [(&str, u32, u32, &str, &str); 41] = [
    ("graph,0,1\n", 2, 1, "a graph has 1 to 64 blocks, not 0", "      ^"),
    ("graph,65,1\n", 2, 1, "a graph has 1 to 64 blocks, not 65", "      ^^"),
    ("graph,256,1\n", 2, 1, "a graph has 1 to 64 blocks, not 256", "      ^^^"),
    ("graph,1,0\n", 2, 1, "a graph has 1 to 16 registers, not 0", "        ^"),
    ("graph,1,17\n", 2, 1, "a graph has 1 to 16 registers, not 17", "        ^^"),
    ("graph,01,1\n", 2, 1, "`01` has a leading zero", "      ^^"),
    (
        "graph,1,1\r\nblock,0\r\nhalt\r\n",
        2,
        1,
        "a carriage return: lines end in a line feed alone",
        "         ^",
    ),
    ("graph,1,1", 2, 1, "the last line does not end in a line feed", ""),
    ("graph,1,1\nblock,0\nhalt", 2, 3, "the last line does not end in a line feed", ""),
    ("graph,1,1\nblock,0\nhalt\nx", 2, 4, "the last line does not end in a line feed", ""),
    ("\n", 2, 1, "the line is empty", ""),
    ("graph,1,1\nblock,0\nhalt\n\n", 2, 4, "the line is empty", ""),
    ("", 3, 1, "the text is empty: graph,B,R is due first", ""),
    ("block,0\n", 3, 1, "graph,B,R is due first", ""),
    ("halt\n", 3, 1, "graph,B,R is due first", ""),
    ("graph,1,1\n", 3, 2, "the text ends before block 0", ""),
    ("graph,2,1\nblock,0\nhalt\n", 3, 4, "the text ends before block 1", ""),
    ("graph,1,1\nblock,0\n", 3, 3, "the text ends before the ending of block 0", ""),
    (
        "graph,2,1\nblock,0\nhalt\nblock,1\nset,0,1\n",
        3,
        6,
        "the text ends before the ending of block 1",
        "",
    ),
    ("graph,1,1\ngraph,1,1\n", 3, 2, "`block,0` is due here", ""),
    ("graph,1,1\nhalt\n", 3, 2, "`block,0` is due here", ""),
    ("graph,2,1\nblock,1\nhalt\n", 3, 2, "`block,0` is due here, not `block,1`", "      ^"),
    (
        "graph,2,1\nblock,0\nhalt\nblock,255\n", 3, 4, "`block,1` is due here, not `block,255`",
        "      ^^^",
    ),
    ("graph,2,1\nblock,0\nhalt\nset,0,1\n", 3, 4, "`block,1` is due here", ""),
    ("graph,2,1\nblock,0\nhalt\ngoto,255\n", 3, 4, "`block,1` is due here", ""),
    (
        "graph,2,1\nblock,0\nblock,1\n",
        3,
        3,
        "an instruction or the ending of block 0 is due here",
        "",
    ),
    (
        "graph,2,1\nblock,0\nset,0,1\ngraph,2,1\n",
        3,
        4,
        "an instruction or the ending of block 0 is due here",
        "",
    ),
    (
        "graph,1,1\nblock,0\nin,0\nin,0\nin,0\nin,0\nin,0\nin,0\nin,0\nin,0\nin,0\n",
        3,
        11,
        "a ninth instruction: a block has at most 8",
        "",
    ),
    (
        "graph,1,1\nblock,0\nin,0\nin,0\nin,0\nin,0\nin,0\nin,0\nin,0\nin,0\nin,9\n",
        3,
        11,
        "a ninth instruction: a block has at most 8",
        "",
    ),
    (
        "graph,1,1\nblock,0\nin,0\nin,0\nin,0\nin,0\nin,0\nin,0\nin,0\nin,0\nblock,1\n",
        3,
        11,
        "the ending of block 0 is due here",
        "",
    ),
    (
        "graph,1,1\nblock,0\nin,0\nin,0\nin,0\nin,0\nin,0\nin,0\nin,0\nin,0\n",
        3,
        11,
        "the text ends before the ending of block 0",
        "",
    ),
    (
        "graph,1,1\nblock,0\nhalt\nhalt\n",
        3,
        4,
        "nothing is due after the ending of block 0, the last",
        "",
    ),
    (
        "graph,1,1\nblock,0\nhalt\nblock,1\nhalt\n",
        3,
        4,
        "nothing is due after the ending of block 0, the last",
        "",
    ),
    ("graph,1,2\nblock,0\nsub,3,1,0\nhalt\n", 4, 3, "register 3 is not below R = 2", "    ^"),
    (
        "graph,1,2\nblock,0\nsub,1,0,255\nhalt\n",
        4,
        3,
        "register 255 is not below R = 2",
        "        ^^^",
    ),
    ("graph,1,16\nblock,0\nset,16,16\nhalt\n", 4, 3, "register 16 is not below R = 16", "    ^^"),
    ("graph,1,2\nblock,0\nite,eq,1,2,9,9\n", 4, 3, "register 2 is not below R = 2", "         ^"),
    ("graph,1,1\nblock,0\nin,1\nhalt\n", 4, 3, "register 1 is not below R = 1", "   ^"),
    ("graph,2,1\nblock,0\ngoto,2\nblock,1\nhalt\n", 5, 3, "target 2 is not below B = 2", "     ^"),
    ("graph,1,3\nblock,0\nite,eq,2,2,0,2\n", 5, 3, "target 2 is not below B = 1", "             ^"),
    (
        "graph,1,1\nblock,0\nite,geu,0,0,64,255\n",
        5,
        3,
        "target 64 is not below B = 1",
        "            ^^",
    ),
];

#[test]
fn texts_that_are_refused() {
    for (text, number, line, message, mark) in TEXTS {
        let expected = (number, line, message.to_string(), mark.to_string());
        assert_eq!(explained(text.as_bytes()), expected, "{text:?}");
    }
}

#[test]
fn a_text_that_is_too_long() {
    let message = String::from("the text has more than 16384 bytes");
    for text in ["\n".repeat(16_385), "x".repeat(16_385)] {
        assert_eq!(explained(text.as_bytes()), (1, 0, message.clone(), String::new()));
    }
}

#[test]
fn bytes_that_are_no_characters() {
    let message = |byte: &str| format!("a graph text has no byte {byte}");
    let mark = String::from;
    assert_eq!(explained(b"graph,1\xff,1\n"), (2, 1, message("0xff"), mark("       ^")));
    assert_eq!(explained(b"\xff\xfeg\0r\0\n"), (2, 1, message("0xff"), mark("^")));
    // The first two bytes of three: what follows belongs to no character.
    assert_eq!(explained(b"halt\xe2\x88\n"), (2, 1, message("0xe2"), mark("    ^")));
    let message = String::from("an upper-case letter `H`: words are in lower case");
    assert_eq!(explained(b"H\xff\n"), (2, 1, message, mark("^")));
}

/// Fields as long as a text may be are shown cut, and take no time.
#[test]
fn long_fields() {
    let of = |start: &str, with: &str| {
        let room = 16_384 - start.len() - 1;
        explained((start.to_string() + &with.repeat(room / with.len()) + "\n").as_bytes()).2
    };
    let nines = "9".repeat(24);
    assert_eq!(of("set,0,", "9"), format!("literal {nines}... is above 2147483647"));
    assert_eq!(of("set,0,-", "9"), format!("literal -{}... is below -2147483648", &nines[1..]));
    assert_eq!(of("graph,", "9"), "`graph` is written graph,B,R");
    assert_eq!(of("graph,1,", "9"), format!("a graph has 1 to 16 registers, not {nines}..."));
    assert_eq!(of("goto,", "0"), format!("`{}...` has a leading zero", "0".repeat(24)));
    assert_eq!(of("in,", "r"), format!("`{}...` is no number", "r".repeat(24)));
    assert_eq!(of("ite", ","), "`ite` is written ite,comparison,a,b,t,f");
    assert_eq!(of("", "goto"), "unknown word `gotogotogotogotogotogoto...`");
    assert_eq!(of("", ","), "an empty field: a line begins with a word");
}

/// The forms of the table are those that the library admits.
#[test]
fn written_forms() {
    let field = |kind: &forms::Kind| match kind {
        forms::Kind::Comparison => ",ne",
        forms::Kind::Blocks | forms::Kind::Registers => ",1",
        _ => ",0",
    };
    for form in &forms::FORMS {
        let line = form.fields.iter().map(|(_, kind)| field(kind)).collect::<String>();
        let line = format!("{}{line}\n", form.word);
        let before = match form.role {
            forms::Role::Graph => "",
            forms::Role::Block => "graph,1,1\n",
            _ => "graph,1,1\nblock,0\n",
        };
        let after = match form.role {
            forms::Role::Graph => "block,0\nhalt\n",
            forms::Role::Ending => "",
            _ => "halt\n",
        };
        assert!(Graph::read((before.to_string() + &line + after).as_bytes()).is_ok(), "{line}");
    }
    for comparison in forms::COMPARISONS {
        let text = format!("graph,1,1\nblock,0\nite,{comparison},0,0,0,0\n");
        assert!(Graph::read(text.as_bytes()).is_ok(), "{comparison}");
    }
}
