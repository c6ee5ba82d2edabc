//! What is lent to a call, and the comparison of what came back.

use std::fmt::Display;
use std::ops::Range;

use val_host::model::Layout;
use val_host::{Line, BALANCES, IMAGE_SIZE, PAYMENTS, USERS};

use crate::differ;

const GUARD: usize = 64;
const GUARD_BYTE: u8 = 0xa5;

/// A buffer at any alignment, with guard bytes on both sides.
pub struct Lent {
    bytes: Vec<u8>,
    at: usize,
    length: usize,
}

impl Lent {
    /// With room for two images and the guards.
    pub fn new() -> Self {
        Lent { bytes: vec![GUARD_BYTE; 3 * IMAGE_SIZE], at: GUARD, length: 0 }
    }

    pub fn load(&mut self, shift: usize, content: &[u8]) {
        self.at = GUARD + shift;
        self.length = content.len();
        let end = self.at + self.length;
        self.bytes[..self.at].fill(GUARD_BYTE);
        self.bytes[self.at..end].copy_from_slice(content);
        self.bytes[end..end + GUARD].fill(GUARD_BYTE);
    }

    pub fn content(&self) -> &[u8] {
        &self.bytes[self.at..self.at + self.length]
    }

    pub fn lend(&mut self) -> &mut [u8] {
        &mut self.bytes[self.at..self.at + self.length]
    }

    pub fn must_be(&self, content: &[u8], what: &str) {
        let end = self.at + self.length;
        let mut guards = self.bytes[..self.at].iter().chain(&self.bytes[end..end + GUARD]);
        if guards.any(|&byte| byte != GUARD_BYTE) {
            differ(&format!("{what}: a byte outside the lent buffer was written"));
        }
        if self.content() != content {
            let at = self.content().iter().zip(content).position(|(a, b)| a != b).unwrap();
            let (left, right) = (self.content()[at], content[at]);
            differ(&format!("{what}: {} is {left}, not {right}", place(self.length, at)));
        }
    }
}

/// A byte of an image in words.
fn place(size: usize, at: usize) -> String {
    let Some(layout) = Layout::of(size) else {
        return format!("byte {at} of {size}");
    };
    let (groups, expenses) = (layout.group_at(0), layout.expense_at(0));
    if at < groups {
        format!("byte {at} (header)")
    } else if at < expenses {
        let size = layout.group_at(1) - groups;
        format!("byte {at} (group {}, its byte {})", (at - groups) / size, (at - groups) % size)
    } else {
        let size = layout.expense_size;
        let (expense, byte) = ((at - expenses) / size, (at - expenses) % size);
        format!("byte {at} (expense {expense}, its byte {byte})")
    }
}

/// Room for lines, as words so that every byte of it can be looked at.
pub const LINES: usize = 12;
pub const WORDS: usize = size_of::<Line>() / size_of::<u64>();
const _: () = assert!(size_of::<Line>() == 40 && align_of::<Line>() == align_of::<u64>());

pub fn lines(words: &mut [u64; LINES * WORDS], count: usize) -> &mut [Line] {
    assert!(count <= LINES);
    // SAFETY: size and alignment as asserted above; any bits are a line.
    unsafe { std::slice::from_raw_parts_mut(words.as_mut_ptr().cast(), count) }
}

/// Room for a list of who pays whom of up to twice the length, for a month's
/// numbers and for all groups' balances, with numbers on both sides that are not
/// lent.
pub const BESIDE: usize = 8;
pub const ROOM: usize = BESIDE + 2 * PAYMENTS + BESIDE;
pub const MONTH_ROOM: usize = BESIDE + 2 * USERS + BESIDE;
pub const BALANCES_ROOM: usize = BESIDE + 2 * BALANCES + BESIDE;

/// Both wrote the same numbers where they may write, and none elsewhere.
pub fn same_numbers<T: Copy + PartialEq + Display>(
    name: &str,
    [left, right, before]: [&[T]; 3],
    written: &Range<usize>,
) {
    for at in 0..before.len() {
        if !written.contains(&at) && (left[at], right[at]) != (before[at], before[at]) {
            differ(&format!("{name}: a refusal wrote a number, or one that was not lent"));
        }
        if left[at] != right[at] {
            let (number, left, right) = (at - written.start, left[at], right[at]);
            differ(&format!("{name}, number {number}: {left}, not {right}"));
        }
    }
}
