//! Safe calls over the static library of Malletfrond. `include/malletfrond.h` says what each takes, answers and refuses; the names are the same.
//!
//! A [`Room`] lends its memory to every call. It can be opened only by [`Room::open`], and nothing but the library writes to it, so refusal 10 is never
//! given; [`calls`] has the same calls over any bytes.

use std::fmt;

/// The most readings, and the most tokens, that a room may be opened for.
pub const MOST_READINGS: u64 = 256;
pub const MOST_TOKENS: u64 = 2048;

/// No line is longer, newline included.
pub const MOST_LINE: usize = 230;

/// A wording is that long.
pub const WORDING: usize = 24;

/// The bytes of a room for `tokens` tokens.
pub const fn room_size(tokens: u64) -> usize {
    18288 + 2 * tokens as usize
}

/// A refusal: its number, and for an opening or a wording the place in the book.
#[derive(Clone, Copy, Debug, PartialEq, Eq)]
pub struct Refusal {
    pub number: u64,
    pub place: u64,
}

impl fmt::Display for Refusal {
    fn fmt(&self, f: &mut fmt::Formatter<'_>) -> fmt::Result {
        write!(f, "refused, {} at {}", self.number, self.place)
    }
}

impl std::error::Error for Refusal {}

/// A meter reading.
#[derive(Clone, Copy, Debug, PartialEq, Eq, PartialOrd, Ord, Hash)]
pub struct Reading {
    pub line: u32,
    pub column: u32,
    pub value: u32,
}

/// Readings present, tokens held, and the complete matches that appeared, vanished or are there.
#[derive(Clone, Copy, Debug, PartialEq, Eq)]
pub struct Counts {
    pub readings: u64,
    pub tokens: u64,
    pub complete: u64,
}

/// The calls over any bytes.
pub mod calls {
    use super::{Counts, Reading, Refusal, WORDING};

    mod c {
        extern "C" {
            pub fn malletfrond_open(room: *mut u8, room_length: usize, book: *const u8, book_length: usize, e: u64, t: u64, place: *mut u64) -> u64;
            pub fn malletfrond_add(room: *mut u8, room_length: usize, line: u32, column: u32, value: u32, readings: *mut u64, tokens: *mut u64, appeared: *mut u64) -> u64;
            pub fn malletfrond_remove(room: *mut u8, room_length: usize, line: u32, column: u32, value: u32, readings: *mut u64, tokens: *mut u64, vanished: *mut u64) -> u64;
            pub fn malletfrond_counts(room: *const u8, room_length: usize, readings: *mut u64, tokens: *mut u64, complete: *mut u64) -> u64;
            pub fn malletfrond_line(room: *const u8, room_length: usize, k: u64, buffer: *mut u8, buffer_length: usize, length: *mut u64) -> u64;
            pub fn malletfrond_wording(book: *const u8, book_length: usize, number: u64, place: *mut u64) -> u64;
            pub fn malletfrond_check(room: *const u8, room_length: usize) -> bool;
        }
    }

    fn accepted<T>(number: u64, place: u64, result: T) -> Result<T, Refusal> {
        if number == 0 {
            Ok(result)
        } else {
            Err(Refusal { number, place })
        }
    }

    // In each call below the slices and numbers are borrowed for the call alone, and Rust's rules keep them apart: that is all that the library asks.

    /// Opens a room for a book: 8, 9, then the book's refusals 1 to 7.
    pub fn open(room: &mut [u8], book: &[u8], readings: u64, tokens: u64) -> Result<(), Refusal> {
        let mut place = 0;
        let number = unsafe { c::malletfrond_open(room.as_mut_ptr(), room.len(), book.as_ptr(), book.len(), readings, tokens, &mut place) };
        accepted(number, place, ())
    }

    /// Adds a reading: 10, 11, 13, 14.
    pub fn add(room: &mut [u8], r: Reading) -> Result<Counts, Refusal> {
        let (mut readings, mut tokens, mut complete) = (0, 0, 0);
        let number = unsafe { c::malletfrond_add(room.as_mut_ptr(), room.len(), r.line, r.column, r.value, &mut readings, &mut tokens, &mut complete) };
        accepted(number, 0, Counts { readings, tokens, complete })
    }

    /// Removes a reading: 10, 12.
    pub fn remove(room: &mut [u8], r: Reading) -> Result<Counts, Refusal> {
        let (mut readings, mut tokens, mut complete) = (0, 0, 0);
        let number = unsafe { c::malletfrond_remove(room.as_mut_ptr(), room.len(), r.line, r.column, r.value, &mut readings, &mut tokens, &mut complete) };
        accepted(number, 0, Counts { readings, tokens, complete })
    }

    /// Readings present, tokens, complete matches: 10.
    pub fn counts(room: &[u8]) -> Result<Counts, Refusal> {
        let (mut readings, mut tokens, mut complete) = (0, 0, 0);
        let number = unsafe { c::malletfrond_counts(room.as_ptr(), room.len(), &mut readings, &mut tokens, &mut complete) };
        accepted(number, 0, Counts { readings, tokens, complete })
    }

    /// Complaint k as a line with its newline: 10, 16, 15.
    pub fn line<'a>(room: &[u8], k: u64, buffer: &'a mut [u8]) -> Result<&'a [u8], Refusal> {
        let mut length = 0;
        let number = unsafe { c::malletfrond_line(room.as_ptr(), room.len(), k, buffer.as_mut_ptr(), buffer.len(), &mut length) };
        accepted(number, 0, &buffer[..length as usize])
    }

    /// The wording of a rule, as the part of the book that it is: the book's refusals 1 to 7, then 17.
    pub fn wording(book: &[u8], rule: u64) -> Result<&[u8], Refusal> {
        let mut place = 0;
        let number = unsafe { c::malletfrond_wording(book.as_ptr(), book.len(), rule, &mut place) };
        if number == 0 {
            Ok(&book[place as usize..place as usize + WORDING])
        } else {
            Err(Refusal { number, place })
        }
    }

    /// Whether a room holds exactly what its readings and stored book define.
    pub fn check(room: &[u8]) -> bool {
        unsafe { c::malletfrond_check(room.as_ptr(), room.len()) }
    }
}

/// A room that was opened, with the memory that it owns.
#[derive(Clone)]
pub struct Room {
    bytes: Box<[u8]>,
}

impl Room {
    /// A room for a book, with at most that many readings and tokens.
    pub fn open(book: &[u8], readings: u64, tokens: u64) -> Result<Room, Refusal> {
        let mut bytes = vec![0; room_size(tokens.min(MOST_TOKENS))].into_boxed_slice();
        calls::open(&mut bytes, book, readings, tokens)?;
        Ok(Room { bytes })
    }

    pub fn add(&mut self, r: Reading) -> Result<Counts, Refusal> {
        calls::add(&mut self.bytes, r)
    }

    pub fn remove(&mut self, r: Reading) -> Result<Counts, Refusal> {
        calls::remove(&mut self.bytes, r)
    }

    pub fn counts(&self) -> Counts {
        calls::counts(&self.bytes).expect("a room that only the library has written is never refused")
    }

    /// Complaint k as text, without its newline; `None` where there is none.
    pub fn complaint(&self, k: u64) -> Option<String> {
        let mut buffer = [0; MOST_LINE];
        let line = calls::line(&self.bytes, k, &mut buffer).ok()?;
        // Digits, slashes and a wording of bytes 32 to 126.
        Some(String::from_utf8_lossy(&line[..line.len() - 1]).into_owned())
    }

    /// The standing list of complaints, in its order.
    pub fn complaints(&self) -> impl Iterator<Item = String> + '_ {
        (0..).map_while(|k| self.complaint(k))
    }

    pub fn check(&self) -> bool {
        calls::check(&self.bytes)
    }

    /// The bytes, for whoever wants to store them.
    pub fn bytes(&self) -> &[u8] {
        &self.bytes
    }
}
