//! Every call once accepted and once refused, from Rust.

use malletfrond::{calls, room_size, Counts, Reading, Refusal, Room, MOST_LINE};

/// Book B of document 01: rule 1, two conditions without tests.
fn book_b() -> Vec<u8> {
    let mut book = vec![1, 0, 1];
    book.extend(b"any two                 ");
    book.extend([2, 2, 9]);
    book
}

fn reading(value: u32) -> Reading {
    Reading { line: 1, column: 1, value }
}

fn refused<T: std::fmt::Debug>(answer: Result<T, Refusal>, number: u64, place: u64) {
    assert_eq!(answer.unwrap_err(), Refusal { number, place });
}

#[test]
fn openings() {
    refused(Room::open(&book_b(), 0, 6).map(|_| ()), 8, 0);
    refused(Room::open(&book_b(), 256, 2049).map(|_| ()), 8, 0);
    refused(Room::open(b"", 256, 6).map(|_| ()), 2, 0);
    refused(Room::open(&[9, 9], 256, 6).map(|_| ()), 4, 1);
    let mut short = vec![7; room_size(6) - 1];
    refused(calls::open(&mut short, &book_b(), 2, 6), 9, 0);
    assert!(short.iter().all(|&b| b == 7));
}

#[test]
fn steps() {
    let mut room = Room::open(&book_b(), 2, 6).unwrap();
    assert_eq!(room.add(reading(1)).unwrap(), Counts { readings: 1, tokens: 2, complete: 1 });
    refused(room.add(reading(1)), 11, 0);
    assert_eq!(room.add(reading(2)).unwrap(), Counts { readings: 2, tokens: 6, complete: 3 });
    refused(room.add(reading(3)), 13, 0);
    refused(room.remove(reading(3)), 12, 0);
    assert_eq!(room.counts(), Counts { readings: 2, tokens: 6, complete: 4 });
    assert!(room.check());
    assert_eq!(room.complaints().collect::<Vec<_>>(), ["1 1/1/1 1/1/1 |any two", "1 1/1/1 1/1/2 |any two", "1 1/1/2 1/1/1 |any two", "1 1/1/2 1/1/2 |any two"]);
    assert_eq!(room.remove(reading(1)).unwrap(), Counts { readings: 1, tokens: 2, complete: 3 });
    let mut full = Room::open(&book_b(), 2, 5).unwrap();
    full.add(reading(1)).unwrap();
    let before = full.bytes().to_vec();
    refused(full.add(reading(2)), 14, 0);
    assert_eq!(full.bytes(), before);
}

#[test]
fn lines() {
    let mut room = Room::open(&book_b(), 2, 6).unwrap();
    room.add(reading(1)).unwrap();
    let mut buffer = [b'.'; MOST_LINE];
    let text = b"1 1/1/1 1/1/1 |any two\n";
    assert_eq!(calls::line(room.bytes(), 0, &mut buffer).unwrap(), text);
    assert!(buffer[text.len()..].iter().all(|&b| b == b'.'));
    refused(calls::line(room.bytes(), 1, &mut buffer).map(|_| ()), 16, 0);
    let mut short = [b'.'; 22];
    refused(calls::line(room.bytes(), 0, &mut short).map(|_| ()), 15, 0);
    assert_eq!(short, [b'.'; 22]);
}

#[test]
fn wordings() {
    let book = book_b();
    assert_eq!(calls::wording(&book, 1).unwrap(), b"any two                 ");
    refused(calls::wording(&book, 2).map(|_| ()), 17, 0);
    refused(calls::wording(&[0], 1).map(|_| ()), 3, 0);
}

#[test]
fn other_memory() {
    let mut zeros = [0u8; 100];
    refused(calls::add(&mut zeros, reading(1)), 10, 0);
    refused(calls::remove(&mut zeros, reading(1)), 10, 0);
    refused(calls::counts(&zeros), 10, 0);
    refused(calls::line(&zeros, 0, &mut [0; 230]).map(|_| ()), 10, 0);
    assert!(!calls::check(&zeros));
    assert!(!calls::check(&[]));
}
