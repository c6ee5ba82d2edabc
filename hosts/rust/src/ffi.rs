//! The library's calls as `include/val.h` declares them.

#[repr(C)]
#[derive(Clone, Copy)]
pub struct Totals {
    pub answer: u32,
    pub members: u32,
    pub expenses: u32,
    pub gifts: u64,
}

#[repr(C)]
#[derive(Clone, Copy)]
pub struct Part {
    pub at: usize,
    pub len: usize,
}

pub use crate::Line;

const _: () =
    assert!(size_of::<Totals>() == 24 && size_of::<Part>() == 16 && size_of::<Line>() == 40);

extern "C" {
    pub fn val_check(image: *const u8, image_len: usize) -> u32;

    pub fn val_empty(image: *mut u8, image_len: usize, van: u64, homes: *const u8) -> u32;

    pub fn val_act(image: *mut u8, image_len: usize, action: *const u8, action_len: usize) -> u32;

    pub fn val_merge(own: *mut u8, own_len: usize, other: *const u8, other_len: usize) -> u32;

    pub fn val_statement(
        image: *const u8,
        image_len: usize,
        group: u64,
        lines: *mut Line,
        lines_len: usize,
    ) -> Totals;

    pub fn val_payments(
        image: *const u8,
        image_len: usize,
        group: u64,
        cents: *mut u64,
        cents_len: usize,
    ) -> u32;

    pub fn val_month(
        image: *const u8,
        image_len: usize,
        group: u64,
        month: u64,
        raws: *mut i64,
        raws_len: usize,
    ) -> u32;

    pub fn val_balances(
        image: *const u8,
        image_len: usize,
        balances: *mut i64,
        balances_len: usize,
    ) -> u32;

    pub fn val_lookup(image: *const u8, image_len: usize, expense: u64) -> Part;

    pub fn val_raise(old: *const u8, old_len: usize, image: *mut u8, image_len: usize) -> u32;
}
