//! Sizes, node lists, texts and program inputs: what passes and what is refused where.

mod common;

use common::{mentioning, nodes, read, tables};
use netkat_reference::answer::{Refusal, Side};
use netkat_reference::generate::{fixed, heavy};
use netkat_reference::policy::{self, OwnedLists};
use netkat_reference::program;
use netkat_reference::{packets, search, text};

fn refusal<T>(number: u8, place: usize) -> Result<T, Refusal> {
    Err(Refusal::new(number, place))
}

#[test]
fn sizes() {
    // All fields are mentioned.
    let check = |sizes: &[u16]| {
        let (left, right) = (nodes("id"), mentioning(sizes.len().clamp(1, 8)));
        let (left, right) = (left.lists(), right.lists());
        packets::values(
            tables(sizes).lend(),
            left,
            right,
            0,
            &mut vec![9; sizes.len()],
        )
    };
    assert_eq!(check(&[]), refusal(1, 0));
    assert_eq!(check(&[0; 9]), refusal(1, 0));
    assert_eq!(check(&[2; 8]), Ok(()));
    assert_eq!(check(&[1025, 0, 0]), refusal(2, 1));
    assert_eq!(check(&[32, 32]), Ok(()));
    assert_eq!(check(&[5, 205]), refusal(3, 1));
    assert_eq!(check(&[1, 65_535, 65_535]), refusal(3, 1));
    assert_eq!(check(&[65_535; 8]), refusal(3, 0));
    assert_eq!(check(&[1024]), Ok(()));
}

#[test]
fn turning() {
    let tables = tables(&[2, 3, 4]);
    let tables = tables.lend();
    let (left, right) = (nodes("f0=0;f2!=1"), nodes("f1<-0"));
    let (left, right) = (left.lists(), right.lists());
    let values = |number, values: &mut [u16]| packets::values(tables, left, right, number, values);
    let number = |values: &[u16]| packets::number(tables, left, right, values);
    for packet in 0..24 {
        let mut found = [9; 3];
        assert_eq!(values(packet, &mut found), Ok(()));
        assert_eq!(found, [packet / 12, packet / 4 % 3, packet % 4]);
        assert_eq!(number(&found), Ok(packet));
    }
    let mut found = [9; 3];
    assert_eq!(values(24, &mut found), refusal(13, 0));
    assert_eq!(found, [9; 3]);
    assert_eq!(values(99, &mut [9; 2]), refusal(13, 3));
    assert_eq!(number(&[9; 4]), refusal(13, 3));
    assert_eq!(number(&[]), refusal(13, 3));
    assert_eq!(number(&[0, 3, 4]), refusal(13, 1));
    assert_eq!(number(&[2, 3, 4]), refusal(13, 0));
}

/// Lists from nodes.
fn lists(given: &[(u8, u16, u16)]) -> OwnedLists {
    let mut lists = OwnedLists::default();
    for &(kind, first, second) in given {
        lists.push(kind, first, second);
    }
    lists
}

#[test]
fn node_lists() {
    let check =
        |given: &[(u8, u16, u16)]| policy::check(tables(&[2, 3]).lend(), lists(given).lists());
    assert_eq!(check(&[]), refusal(4, 0));
    assert_eq!(check(&[(1, 0, 0)]), Ok(0));
    assert_eq!(check(&[(5, 0, 0)]), Ok(1));
    assert_eq!(check(&[(6, 9, 9), (10, 0, 0)]), refusal(5, 1));
    assert_eq!(check(&[(255, 0, 0)]), refusal(5, 0));
    // Unused entries, and fields with their values.
    for kind in [0, 1, 5] {
        assert_eq!(check(&[(kind, 1, 0)]), refusal(6, 0));
        assert_eq!(check(&[(kind, 0, 1)]), refusal(6, 0));
    }
    for kind in [2, 3, 4] {
        assert_eq!(check(&[(kind, 1, 2)]), Ok(0));
        assert_eq!(check(&[(kind, 0, 2)]), refusal(6, 0));
        assert_eq!(check(&[(kind, 2, 0)]), refusal(6, 0));
        assert_eq!(check(&[(kind, 1, 3)]), refusal(6, 0));
    }
    assert_eq!(check(&[(1, 0, 0), (8, 0, 0)]), Ok(0));
    assert_eq!(check(&[(1, 0, 0), (8, 0, 1)]), refusal(6, 1));
    // Children.
    assert_eq!(check(&[(8, 0, 0)]), refusal(7, 0));
    assert_eq!(check(&[(1, 0, 0), (6, 0, 1)]), refusal(7, 1));
    assert_eq!(check(&[(1, 0, 0), (7, 1, 0)]), refusal(7, 1));
    assert_eq!(check(&[(1, 0, 0), (7, 0, 0)]), refusal(8, 0));
    assert_eq!(check(&[(1, 0, 0), (1, 0, 0)]), refusal(8, 0));
    assert_eq!(check(&[(1, 0, 0), (1, 0, 0), (8, 0, 0)]), refusal(8, 1));
    // Negations.
    assert_eq!(check(&[(1, 0, 0), (9, 0, 0)]), Ok(0));
    assert_eq!(check(&[(1, 0, 0), (9, 0, 1)]), refusal(6, 1));
    assert_eq!(check(&[(9, 0, 0)]), refusal(7, 0));
    assert_eq!(check(&[(1, 0, 0), (9, 1, 0)]), refusal(7, 1));
    assert_eq!(check(&[(1, 0, 0), (1, 0, 0), (9, 0, 0)]), refusal(8, 1));
    assert_eq!(
        check(&[(1, 0, 0), (9, 0, 0), (9, 0, 0), (6, 1, 2)]),
        refusal(8, 0)
    );
    // Not in postfix order, and legal.
    let shuffled = [(5, 0, 0), (1, 0, 0), (5, 0, 0), (6, 2, 1), (7, 3, 0)];
    assert_eq!(check(&shuffled), Ok(2));
    // Dups.
    let dups = |count: usize| nodes(&vec!["dup"; count].join("+"));
    for count in [31, 32, 33, 62, 63] {
        assert_eq!(
            policy::check(tables(&[1]).lend(), dups(count).lists()),
            Ok(count)
        );
    }
    assert_eq!(
        policy::check(tables(&[1]).lend(), dups(64).lists()),
        refusal(9, 125)
    );
    assert_eq!(
        policy::check(tables(&[1]).lend(), dups(200).lists()),
        refusal(9, 125)
    );
    // Lengths.
    let mut long = lists(&[(1, 0, 0)]);
    while long.kind.len() < 512 {
        long.push(8, long.kind.len() as u16 - 1, 0);
    }
    assert_eq!(policy::check(tables(&[1]).lend(), long.lists()), Ok(0));
    let shorter = |change: fn(&mut OwnedLists)| {
        let mut lists = long.clone();
        change(&mut lists);
        policy::check(tables(&[1]).lend(), lists.lists())
    };
    assert_eq!(shorter(|lists| lists.kind.truncate(511)), refusal(4, 0));
    assert_eq!(shorter(|lists| lists.first.truncate(511)), refusal(4, 0));
    assert_eq!(shorter(|lists| lists.second.truncate(511)), refusal(4, 0));
    assert_eq!(
        shorter(|lists| {
            lists.push(8, 511, 0);
        }),
        refusal(4, 0)
    );
}

#[test]
fn negated_kinds() {
    let check = |text: &str| policy::check(tables(&[2, 3]).lend(), nodes(text).lists());
    for legal in [
        "!drop",
        "!id",
        "!f0=0",
        "!f0!=0",
        "!(f0=0+id)",
        "!(f0=0;f1!=0)",
        "!!f0=0",
        "!(f0=0;!(f1=2+!drop))",
        "!f0=0*",
        "!f0=0;dup;f0<-0",
        "(f0<-1;!f0=0)*",
    ] {
        let dups = legal.matches("dup").count();
        assert_eq!(check(legal), Ok(dups), "{legal}");
    }
    for (text, place) in [
        ("!(f0=0*)", 2),
        ("!!dup", 1),
        ("!(f0=0+dup)", 3),
        ("!dup", 1),
        ("!f0<-1", 1),
        ("!(id*)", 2),
        ("!!!dup", 1),
        ("!(id;!dup)", 2),
        ("!(id;!f0=0;dup)", 6),
        ("!(!f0=0*)", 3),
        ("!(f0=0;(f1=0+(f1=1;f0<-1)))", 7),
        ("!id+!dup", 3),
        ("!dup+!dup", 1),
        ("(!dup)*", 1),
    ] {
        assert_eq!(check(text), refusal(19, place), "{text}");
    }
    // The lowest in number, whichever is inner or stands to the left.
    let apart = [(5, 0, 0), (1, 0, 0), (9, 1, 0), (9, 0, 0), (6, 3, 2)];
    assert_eq!(
        policy::check(tables(&[1]).lend(), lists(&apart).lists()),
        refusal(19, 3)
    );
    // 512 nodes, nested as deep as can be.
    let nested = format!("{}f0=0", "!".repeat(511));
    assert_eq!(check(&nested), Ok(0));
    let nested = format!("{}dup", "!".repeat(511));
    assert_eq!(check(&nested), refusal(19, 1));
}

#[test]
fn causes_go_before_sides() {
    let search = |left: &OwnedLists, right: &OwnedLists| {
        let mut lent = search::Lists::new(9, 9, 0);
        search::search(
            tables(&[2]).lend(),
            left.lists(),
            right.lists(),
            lent.lend(),
        )
        .unwrap_err()
    };
    let empty = lists(&[]);
    let unknown = lists(&[(10, 0, 0)]);
    let entry = lists(&[(1, 0, 1)]);
    let child = lists(&[(8, 0, 0)]);
    let twice = lists(&[(1, 0, 0), (1, 0, 0)]);
    let negated = nodes("!dup");
    let dups = nodes(&["dup"; 64].join("+"));
    let legal = lists(&[(1, 0, 0)]);
    let in_order = [
        (4, 0, &empty),
        (5, 0, &unknown),
        (6, 0, &entry),
        (7, 0, &child),
        (8, 0, &twice),
        (19, 1, &negated),
        (9, 125, &dups),
    ];
    for (at, &(number, place, earlier)) in in_order.iter().enumerate() {
        let refused = Refusal::new(number, place);
        assert_eq!(search(earlier, earlier), refused.on(1));
        assert_eq!(search(&legal, earlier), refused.on(2));
        for (_, _, later) in &in_order[at + 1..] {
            assert_eq!(search(earlier, later), refused.on(1));
            assert_eq!(search(later, earlier), refused.on(2));
        }
    }
    assert_eq!(search(&legal, &legal), Refusal::new(10, 0));
}

fn refused(text: &str) -> (u8, u64) {
    let refusal = read(text).unwrap_err();
    assert_eq!(refusal.side, 0);
    (refusal.number, refusal.place)
}

#[test]
fn grammar() {
    assert_eq!(
        read(" f7 != 65535\t;dup* + ( drop+id ) "),
        Ok(lists(&[
            (3, 7, 65_535),
            (5, 0, 0),
            (8, 1, 0),
            (7, 0, 2),
            (0, 0, 0),
            (1, 0, 0),
            (6, 4, 5),
            (6, 3, 6),
        ]))
    );
    assert_eq!(
        read("id;id;id+f0<-0+f0=1"),
        Ok(lists(&[
            (1, 0, 0),
            (1, 0, 0),
            (7, 0, 1),
            (1, 0, 0),
            (7, 2, 3),
            (4, 0, 0),
            (6, 4, 5),
            (2, 0, 1),
            (6, 6, 7),
        ]))
    );
    assert_eq!(read("((id))"), Ok(lists(&[(1, 0, 0)])));
    assert_eq!(
        read("id * *"),
        Ok(lists(&[(1, 0, 0), (8, 0, 0), (8, 1, 0)]))
    );
}

#[test]
fn negations() {
    assert_eq!(
        read("!f0=0*"),
        Ok(lists(&[(2, 0, 0), (9, 0, 0), (8, 1, 0)]))
    );
    assert_eq!(
        read("!(f0=0*)"),
        Ok(lists(&[(2, 0, 0), (8, 0, 0), (9, 1, 0)]))
    );
    assert_eq!(
        read(" ! !\tf1!=2;!id+!dup"),
        Ok(lists(&[
            (3, 1, 2),
            (9, 0, 0),
            (9, 1, 0),
            (1, 0, 0),
            (9, 3, 0),
            (7, 2, 4),
            (5, 0, 0),
            (9, 6, 0),
            (6, 5, 7),
        ]))
    );
    assert_eq!(
        read("!(id;!(drop))"),
        Ok(lists(&[
            (1, 0, 0),
            (0, 0, 0),
            (9, 1, 0),
            (7, 0, 2),
            (9, 3, 0)
        ]))
    );
    // The reader does not ask what is negated.
    assert!(read("!dup;!f0<-1").is_ok());
    for (text, place) in [
        ("f0 ! = 0", 3),
        ("!!=0", 1),
        ("!=0", 0),
        ("!", 1),
        ("! ", 2),
        ("!!", 2),
        ("!)", 1),
        ("(!)", 2),
        ("!+id", 1),
        ("!;id", 1),
        ("!*", 1),
        ("!0", 1),
        ("!=", 0),
        ("! =0", 2),
        ("f0=!0", 3),
        ("f0!", 2),
        ("f0!!=0", 2),
        ("id!", 2),
        ("id !id", 3),
        ("(id)!id", 4),
        ("id*!", 3),
        ("!f0", 3),
        ("!id id", 4),
    ] {
        assert_eq!(refused(text), (16, place), "{text:?}");
    }
    let run = |count: usize| format!("{}id", "!".repeat(count));
    assert_eq!(read(&run(511)).unwrap().kind.len(), 512);
    assert_eq!(refused(&run(512)), (17, 513));
    assert_eq!(refused(&run(513)), (17, 514));
    assert_eq!(refused(&run(1_000_000)), (17, 1_000_001));
    assert_eq!(refused(&"!".repeat(1_000_000)), (16, 1_000_000));
    assert_eq!(
        refused(&format!("{}=0", "!".repeat(1_000_000))),
        (16, 999_999)
    );
    let starred = format!("{}(id){}", "! ".repeat(300_000), "*".repeat(300_000));
    assert_eq!(refused(&starred), (17, 600_001));
    let deep = format!("{}id{}", "!(".repeat(64), ")".repeat(64));
    assert_eq!(read(&deep).unwrap().kind.len(), 65);
    let deep = format!("{}id{}", "!(".repeat(65), ")".repeat(65));
    assert_eq!(refused(&deep), (15, 129));
}

#[test]
fn words_and_tokens() {
    for bad in [
        "ID",
        "Dup",
        "f8",
        "f",
        "f00",
        "00",
        "01",
        "65536",
        "100000",
        "id0",
        "dropid",
        "x",
        "99999999999999999999",
        "é",
        "id\n",
        "id\r",
        "\0",
        "~",
        "id;\u{7f}",
    ] {
        let place = match bad {
            "id\n" | "id\r" => 2,
            "id;\u{7f}" => 3,
            _ => 0,
        };
        assert_eq!(refused(bad), (14, place), "{bad:?}");
    }
    assert_eq!(refused("f0 < - 0"), (14, 3));
    assert_eq!(refused("f0 <"), (14, 3));
    // A mark of its own, so that the grammar is what refuses it.
    assert_eq!(refused("f0 ! = 0"), (16, 3));
    assert_eq!(refused("f0 !"), (16, 3));
    assert!(read("f0 = 0").is_ok());
    // 14 is tried over the whole text first, then 15.
    assert_eq!(refused(") id id ("), (16, 0));
    assert_eq!(refused(") id id ( $"), (14, 10));
    let many = format!(")))*{}", "(".repeat(65));
    assert_eq!(refused(&many), (15, 68));
    assert_eq!(refused(&format!("{many}$")), (14, 69));
}

#[test]
fn parentheses() {
    let nested = |count| format!("{}id{}", "(".repeat(count), ")".repeat(count));
    assert_eq!(read(&nested(64)), Ok(lists(&[(1, 0, 0)])));
    assert_eq!(refused(&nested(65)), (15, 64));
    assert!(read(&vec!["(id)"; 100].join(";")).is_ok());
}

#[test]
fn what_no_legal_text_continues_with() {
    for (text, place) in [
        ("", 0),
        ("  ", 2),
        ("id id", 3),
        ("id;", 3),
        ("id; \t", 5),
        ("id+*", 3),
        ("+id", 0),
        ("*", 0),
        ("()", 1),
        ("(id", 3),
        ("(id ", 4),
        ("(id))", 4),
        ("id)", 2),
        ("f0", 2),
        ("f0;id", 2),
        ("f0=", 3),
        ("f0=id", 3),
        ("f0=f1", 3),
        ("f0==0", 3),
        ("0", 0),
        ("f0=0 1", 5),
        ("id(id)", 2),
        ("(id)(id)", 4),
        ("=", 0),
    ] {
        assert_eq!(refused(text), (16, place), "{text:?}");
    }
}

/// Reads a text over f0 to f7 into lent lists.
fn read_into(
    text: &[u8],
    kind: &mut [u8],
    first: &mut [u16],
    second: &mut [u16],
) -> Result<usize, Refusal> {
    let eight = tables(&[1; 8]);
    text::read(eight.lend(), Side::Left, text, kind, first, second)
}

#[test]
fn node_counts() {
    let stars = |count| format!("id{}", "*".repeat(count));
    assert_eq!(read(&stars(511)).unwrap().kind.len(), 512);
    assert_eq!(refused(&stars(512)), (17, 513));
    assert_eq!(refused(&stars(100_000)), (17, 100_001));
    assert_eq!(refused(&vec!["id"; 70_000].join(";")), (17, 139_999));
    assert_eq!(refused(&format!("{};", stars(600))), (16, 603));
    // Lent lists.
    let (mut kind, mut first, mut second) = ([9; 5], [9; 4], [9; 3]);
    let count = read_into(b"f1<-2*", &mut kind, &mut first, &mut second);
    assert_eq!(count, Ok(2));
    assert_eq!(kind, [4, 8, 9, 9, 9]);
    assert_eq!(first, [1, 0, 9, 9]);
    assert_eq!(second, [2, 0, 9]);
    let count = read_into(b"f1<-2***", &mut kind, &mut first, &mut second);
    assert_eq!(count, refusal(17, 4));
    assert_eq!(kind, [4, 8, 9, 9, 9]);
    assert_eq!(
        read_into(b"id", &mut [], &mut [0], &mut [0]),
        refusal(17, 1)
    );
    assert_eq!(read_into(b"", &mut [], &mut [], &mut []), refusal(16, 0));
}

fn program(input: &str) -> String {
    String::from_utf8(program::run(input.as_bytes())).unwrap()
}

#[test]
fn the_example() {
    let output = "equal,4,0\r\n0,1,1\r\n1,1,1\r\n0,2,2\r\n1,0,2\r\n";
    assert_eq!(program("f0=2\nf0=2\nf0=0;dup\ndup;f0=0\n"), output);
    assert_eq!(program("f0=2\r\nf0=2\r\nf0=0;dup\r\ndup;f0=0\r\n"), output);
    assert_eq!(program("f0=2\r\nf0=2\r\nf0=0;dup\ndup;f0=0"), output);
    assert_eq!(
        program("f0=1\nf0=1\ndup\ndup;dup\n"),
        "left,2,0\r\n1,0,0\r\n2,0,1\r\n"
    );
    assert_eq!(
        program("f0=3\nf0=3\nf0=0+f0=1\nid"),
        "right,1,2\r\n1,2,1\r\n"
    );
}

#[test]
fn program_inputs() {
    for (input, number, place) in [
        ("", 18, 0),
        ("\n", 18, 0),
        ("f0=2\nf0=2\nid\n", 18, 0),
        ("f0=2\nf0=2\nid\n\n", 16, 0),
        ("f0=2\nf0=2\nid\n\r\n", 16, 0),
        ("f0=2\nf0=2\nid\nid\n\n", 18, 0),
        ("f0=2\nf0=2\nid\nid\n\r", 18, 0),
        ("f0=2\nf0=2\nid\nid\r", 14, 2),
        ("f0=2\nf0=2\nid\r\r\nid", 14, 2),
        ("f0=2\r\r\nf0=2\nid\nid", 18, 0),
        ("\nid\nid\n", 18, 0),
        ("2\n2\nid\nid", 18, 0),
        ("f0=2, f1=2\nf0=2\nid\nid", 20, 1),
        ("f0=02\nf0=02\nid\nid", 18, 0),
        ("f0=65536\nf0=65536\nid\nid", 18, 0),
        ("f0=65535\nf0=65535\n?\nid", 14, 0),
        ("f0=65535\nf0=65535\nid\nf0=65534", 3, 0),
        ("f0=0\nf0=0\n?\nid", 2, 0),
        ("f0=1,f1=1,f2=1,f3=1,f4=1,f5=1,f6=1,f7=1,f8=0\nf0=1,f1=1,f2=1,f3=1,f4=1,f5=1,f6=1,f7=1,f8=0\n?\nid", 1, 0),
        ("f0=5,f1=205\nf0=5,f1=205\n?\nid", 14, 0),
        ("f0=5,f1=205\nf0=5,f1=205\nf0=0\nf1=0", 3, 1),
        ("f0=2\nf0=2\n?\n?", 14, 0),
        ("f0=2\nf0=2\nid\n id ?", 14, 4),
        ("f0=2\nf0=2\nid;f0=2\nf0=2", 6, 1),
        ("f0=2\nf0=2\nid\nid;f1=0", 14, 3),
        ("f0=2\nf0=2\n!!dup\nid", 19, 1),
        ("f0=2\nf0=2\nid\n!(f0=0+dup)", 19, 3),
        ("f0=2\nf0=2\n!(f0=0*)\n!dup", 19, 2),
        ("f0=2\nf0=2\n!\n!!dup", 16, 1),
        ("f0=2\nf0=2\n!dup\nf0 ! = 0", 16, 3),
        ("f0=2\nf0=2\n!dup\nf0=2", 6, 0),
    ] {
        let expected = format!("refused,{number},{place}\r\n");
        assert_eq!(program(input), expected, "{input:?}");
    }
    let padded = |length: usize| {
        let mut input = "f0=2\nf0=2\nid\nid".to_string();
        input.push_str(&" ".repeat(length - input.len()));
        program(&input)
    };
    assert_eq!(padded(32_768), "equal,1,0\r\n0,1,1\r\n");
    assert_eq!(padded(32_769), "refused,18,0\r\n");
}

#[test]
fn the_program_lends_4096_rows() {
    // The starting rows and three more for each fit, four don't.
    let run = |dups| program(&fixed::recorded(dups).input());
    assert!(run(3).starts_with("equal,4096,0\r\n"));
    assert_eq!(run(4), "refused,11,4096\r\n");
}

#[test]
fn the_program_prints_states_of_64_bits() {
    let pair = heavy::long_lines();
    let output = program(&pair.input());
    assert!(output.starts_with("equal,4065,0\r\n0,1,1\r\n"));
    // Every state but the first has twenty digits.
    assert_eq!(output.len(), 14 + 5 * 7 + 4060 * 45);
    let dups = |count: usize| vec!["dup"; count].join("+");
    assert_eq!(
        program(&format!("f0=1\nf0=1\n{}\n{}\n", dups(63), dups(62))),
        "equal,2,0\r\n0,1,1\r\n0,18446744073709551614,9223372036854775806\r\n"
    );
    assert_eq!(
        program(&format!("f0=1\nf0=1\nid\n{}\n", dups(64))),
        "refused,9,125\r\n"
    );
}
