//! Three checks: one that ends in equal, whose table is then checked, one that ends in a telling trace, whose packets are then shown by their
//! values, and one that runs out of rows.

use std::error::Error;

use netkat::{Checker, Holders, Policy, Refusal, Row, Rows, Ruling, Side, Tables, Verdict};

fn check(left_text: &str, right_text: &str, lent: usize) -> Result<(), Box<dyn Error>> {
    // no policy here mentions vlan, so the packets are 0 and 1, the values of sw, or 0 alone
    let mut checker = Checker::new(Tables::shared(&[("vlan", 1000), ("sw", 2)]));
    let left = checker.read(Side::Left, left_text.as_bytes())?;
    let right = checker.read(Side::Right, right_text.as_bytes())?;

    println!("{left_text} against {right_text}");
    let verdict = match checker.search(&left, &right, lent) {
        Err(Refusal {
            place,
            agreed: Some(length),
            ..
        }) => {
            println!("  more than {place} rows needed; the same traces up to length {length}");
            return Ok(());
        }
        verdict => verdict?,
    };
    match verdict {
        Verdict::Equal(rows) => {
            println!("  equal, {} rows", rows.packet.len());
            for ((packet, left), right) in rows.packet.iter().zip(&rows.left).zip(&rows.right) {
                println!("  {packet} {left} {right}");
            }
            let empty = Rows {
                packet: Vec::new(),
                left: Vec::new(),
                right: Vec::new(),
            };
            println!("  table {}", said(checker.evidence(&left, &right, &rows)?));
            let records = records(&rows);
            println!(
                "  table of records {}",
                said(checker.evidence_rows(&left, &right, &records)?)
            );
            println!(
                "  empty table {}",
                said(checker.evidence(&left, &right, &empty)?)
            );
        }
        Verdict::Different {
            side,
            entering,
            trace,
        } => {
            let packets: Vec<String> = trace.iter().map(u16::to_string).collect();
            let side = match side {
                Side::Left => "left",
                Side::Right => "right",
            };
            println!("  {side}, entering {entering}, trace {}", packets.join(" "));
            match checker.trace(&left, &right, entering, &trace)? {
                Holders::Only(Side::Left) => println!("  the trace is left's alone"),
                Holders::Only(Side::Right) => println!("  the trace is right's alone"),
                Holders::Both | Holders::Neither => println!("  the trace is not one policy's"),
            }
            show_packet(&checker, &left, &right, entering)?;
            for packet in trace {
                show_packet(&checker, &left, &right, packet)?;
            }
        }
    }
    Ok(())
}

/// A packet of the two policies by its values; a field that neither mentions shows 0.
fn show_packet(
    checker: &Checker,
    left: &Policy,
    right: &Policy,
    number: u16,
) -> Result<(), Refusal> {
    let values = checker.values(left, right, number)?;
    println!("  {number}: vlan {}, sw {}", values[0], values[1]);
    Ok(())
}

/// The rows as records; nobody reads their parents.
fn records(rows: &Rows) -> Vec<Row> {
    let record = |row| Row {
        packet: rows.packet[row],
        left: rows.left[row],
        right: rows.right[row],
        parent: 0,
    };
    (0..rows.packet.len()).map(record).collect()
}

fn said(ruling: Ruling) -> &'static str {
    match ruling {
        Ruling::Accepted => "accepted",
        Ruling::OutOfRange(_) => "rejected by rule 1",
        Ruling::NoStart(_) => "rejected by rule 2",
        Ruling::OutputsDiffer(_) => "rejected by rule 3",
        Ruling::NextMissing(_, _) => "rejected by rule 4",
    }
}

fn main() -> Result<(), Box<dyn Error>> {
    check("sw=0;dup", "dup;sw=0", 4096)?;
    check("dup;sw<-1", "sw<-1;dup", 4096)?;
    check("dup*", "id+dup;dup*", 2)
}
