//! Every byte at every place of small texts, and bytes at the edges of their classes in the program's input.

use super::lent::fill;
use crate::case::Case;
use crate::names::OwnedTables;
use crate::policy::OwnedLists;

/// Each kind of token stands in one of them.
const SMALL: [&str; 6] = ["", "id", "f0=1", "f0!=10", "f0<-1", "!(f0=9;dup)* + drop"];

/// Bytes at the edges of the classes.
const EDGES: [u8; 20] = [
    9, 32, 33, 47, 48, 57, 58, 60, 61, 64, 65, 90, 91, 96, 97, 122, 123, 127, 128, 255,
];

/// Nodes to lend to the reader, more than any of these texts has.
const ROOM: usize = 12;

/// The text with each of the bytes before each of its bytes, at its end, and in the stead of each of its bytes.
fn with_bytes(text: &[u8], bytes: &[u8]) -> Vec<Vec<u8>> {
    let mut made = Vec::new();
    for at in 0..=text.len() {
        let (before, after) = text.split_at(at);
        for &byte in bytes {
            made.push([before, &[byte], after].concat());
            if let [_, rest @ ..] = after {
                made.push([before, &[byte], rest].concat());
            }
        }
    }
    made
}

fn read(text: Vec<u8>) -> Case {
    Case::Read {
        tables: OwnedTables::numbered(&[2]),
        side: 1,
        text,
        nodes: OwnedLists {
            kind: vec![0; ROOM],
            first: vec![0; ROOM],
            second: vec![0; ROOM],
        },
    }
}

/// The program's input with these texts over f0.
fn program(left: &[u8], right: &[u8]) -> Case {
    Case::Program {
        input: [b"f0=2\nf0=2\n".as_slice(), left, b"\n", right].concat(),
        output: Vec::new(),
    }
}

/// The texts read, and some of them handed to the program on either side.
pub fn cases() -> Vec<Case> {
    let every: Vec<u8> = (0..=u8::MAX).collect();
    let texts = SMALL
        .iter()
        .flat_map(|text| with_bytes(text.as_bytes(), &every));
    let mut cases: Vec<Case> = texts.map(read).collect();
    for text in with_bytes(b"f0=1", &EDGES) {
        cases.push(program(&text, b"id"));
        cases.push(program(b"id", &text));
    }
    for (at, case) in cases.iter_mut().enumerate() {
        fill(case, at);
    }
    cases
}
