//! The symbols of the static library, as crates/luphwezane_c exports them. This is their one declaration in Rust: tests that pass
//! what only a C program can use it too.

use super::{Block, Point, Settings};

/// A candidate but for its bytes. The layout is that of `luph_private_shape` in the C header.
#[repr(C)]
pub struct Shape {
    pub kind: u32,
    pub value: [u8; 2],
    pub start: Point,
    pub end: Point,
}

#[rustfmt::skip]
extern "C" {
    pub fn luph_raw_render(
        settings: Settings, view: u32,
        texture: *const u16, texture_len: usize, depths: *const u8, depths_len: usize,
        samples: *mut u16, samples_len: usize, marks: *mut u8, marks_len: usize, fronts: *mut u8, fronts_len: usize,
    ) -> u32;
    pub fn luph_raw_open(
        settings: Settings,
        left: *const u16, left_len: usize, right: *const u16, right_len: usize,
        reference: *const u16, reference_len: usize,
        left_depths: *const u8, left_depths_len: usize, right_depths: *const u8, right_depths_len: usize,
        left_samples: *mut u16, left_samples_len: usize, left_fronts: *mut u8, left_fronts_len: usize,
        left_limits: *mut i16, left_limits_len: usize, left_marks: *mut u8, left_marks_len: usize,
        right_samples: *mut u16, right_samples_len: usize, right_fronts: *mut u8, right_fronts_len: usize,
        right_limits: *mut i16, right_limits_len: usize, right_marks: *mut u8, right_marks_len: usize,
        combined: *mut u16, combined_len: usize,
        journal: *mut u32, journal_len: usize,
        total: *mut u64,
    ) -> u32;
    pub fn luph_raw_move(
        settings: Settings, to: Settings,
        left: *const u16, left_len: usize, right: *const u16, right_len: usize,
        reference: *const u16, reference_len: usize,
        left_depths: *const u8, left_depths_len: usize, right_depths: *const u8, right_depths_len: usize,
        left_samples: *mut u16, left_samples_len: usize, left_fronts: *mut u8, left_fronts_len: usize,
        left_limits: *mut i16, left_limits_len: usize, left_marks: *mut u8, left_marks_len: usize,
        right_samples: *mut u16, right_samples_len: usize, right_fronts: *mut u8, right_fronts_len: usize,
        right_limits: *mut i16, right_limits_len: usize, right_marks: *mut u8, right_marks_len: usize,
        combined: *mut u16, combined_len: usize,
        journal: *mut u32, journal_len: usize,
        total: *mut u64,
    ) -> u32;
    pub fn luph_raw_get(
        w: u32, h: u32, left_table: *const u16, right_table: *const u16, share: u8, tolerance: u8, widest_gap: u8, torn_distance: u8, total: u64,
        left: *const u16, left_len: usize, right: *const u16, right_len: usize,
        reference: *const u16, reference_len: usize,
        left_depths: *const u8, left_depths_len: usize, right_depths: *const u8, right_depths_len: usize,
        left_samples: *const u16, left_samples_len: usize, left_fronts: *const u8, left_fronts_len: usize,
        left_limits: *const i16, left_limits_len: usize, left_marks: *const u8, left_marks_len: usize,
        right_samples: *const u16, right_samples_len: usize, right_fronts: *const u8, right_fronts_len: usize,
        right_limits: *const i16, right_limits_len: usize, right_marks: *const u8, right_marks_len: usize,
        combined: *const u16, combined_len: usize,
        view: u32, block: Block, shape: Shape, bytes: *const u8, bytes_len: usize,
        change: *mut i64,
    ) -> u32;
    pub fn luph_raw_set(
        settings: Settings,
        left: *const u16, left_len: usize, right: *const u16, right_len: usize,
        reference: *const u16, reference_len: usize,
        left_depths: *mut u8, left_depths_len: usize, right_depths: *mut u8, right_depths_len: usize,
        left_samples: *mut u16, left_samples_len: usize, left_fronts: *mut u8, left_fronts_len: usize,
        left_limits: *mut i16, left_limits_len: usize, left_marks: *mut u8, left_marks_len: usize,
        right_samples: *mut u16, right_samples_len: usize, right_fronts: *mut u8, right_fronts_len: usize,
        right_limits: *mut i16, right_limits_len: usize, right_marks: *mut u8, right_marks_len: usize,
        combined: *mut u16, combined_len: usize,
        journal: *mut u32, journal_len: usize,
        view: u32, block: Block, shape: Shape, bytes: *const u8, bytes_len: usize,
        change: *mut i64, total: *mut u64,
    ) -> u32;
    pub fn luph_raw_take_back(
        settings: Settings,
        left: *const u16, left_len: usize, right: *const u16, right_len: usize,
        reference: *const u16, reference_len: usize,
        left_depths: *mut u8, left_depths_len: usize, right_depths: *mut u8, right_depths_len: usize,
        left_samples: *mut u16, left_samples_len: usize, left_fronts: *mut u8, left_fronts_len: usize,
        left_limits: *mut i16, left_limits_len: usize, left_marks: *mut u8, left_marks_len: usize,
        right_samples: *mut u16, right_samples_len: usize, right_fronts: *mut u8, right_fronts_len: usize,
        right_limits: *mut i16, right_limits_len: usize, right_marks: *mut u8, right_marks_len: usize,
        combined: *mut u16, combined_len: usize,
        journal: *mut u32, journal_len: usize,
        change: *mut i64, total: *mut u64,
    ) -> u32;
    pub fn luph_raw_check(
        settings: Settings,
        left: *const u16, left_len: usize, right: *const u16, right_len: usize,
        reference: *const u16, reference_len: usize,
        left_depths: *const u8, left_depths_len: usize, right_depths: *const u8, right_depths_len: usize,
        left_samples: *const u16, left_samples_len: usize, left_fronts: *const u8, left_fronts_len: usize,
        left_limits: *const i16, left_limits_len: usize, left_marks: *const u8, left_marks_len: usize,
        right_samples: *const u16, right_samples_len: usize, right_fronts: *const u8, right_fronts_len: usize,
        right_limits: *const i16, right_limits_len: usize, right_marks: *const u8, right_marks_len: usize,
        combined: *const u16, combined_len: usize,
        kind: *mut u32, row: *mut u32, column: *mut u32,
    ) -> u32;
    pub fn luph_raw_holes(
        settings: Settings, view: u32,
        left: *const u8, left_len: usize, right: *const u8, right_len: usize,
        count: *mut u64,
    ) -> u32;
}
