//! A 1 read as 7, and the clerk's correction: document 01's book A.

use malletfrond::{Reading, Room};

/// Rule 7, "jump over 500": a reading of column 3, and one of the line below it that is at least 500 higher.
fn book() -> Vec<u8> {
    let mut book = vec![1, 0, 7];
    book.extend(b"jump over 500           ");
    book.extend([2, 3, 1, 0, 0, 0, 0, 3]);
    book.extend([2, 3, 1, 0, 0, 0, 0, 3]);
    book.extend([5, 0, 0, 0]);
    book.extend(1i64.to_be_bytes());
    book.extend(1i64.to_be_bytes());
    book.extend([5, 2, 0, 2]);
    book.extend(500i64.to_be_bytes());
    book.extend(4294967295i64.to_be_bytes());
    book.push(9);
    book
}

fn show(room: &Room) {
    let counts = room.counts();
    println!("{} readings, {} tokens, {} complaints", counts.readings, counts.tokens, counts.complete);
    for line in room.complaints() {
        println!("  {line}");
    }
}

fn main() -> Result<(), malletfrond::Refusal> {
    let mut room = Room::open(&book(), 256, 2048)?;
    room.add(Reading { line: 12, column: 3, value: 140 })?;
    room.add(Reading { line: 13, column: 3, value: 710 })?;
    show(&room);
    room.remove(Reading { line: 13, column: 3, value: 710 })?;
    room.add(Reading { line: 13, column: 3, value: 110 })?;
    show(&room);
    assert!(room.check());
    Ok(())
}
