// The proved calls that the benches measure, as host/vendorfinch.h declares them.
#![allow(dead_code)]

extern "C" {
    pub fn vendorfinch_read(
        model: *const u8, model_size: usize, file: *const u8, size: usize, text: *mut u8, text_room: usize,
        marks: *mut u8, marks_room: usize, rows: *mut u64, rows_room: usize, cells: *mut i64, cells_room: usize,
        points: *mut i64, points_room: usize, index: *mut u64, index_room: usize, seed: u64,
        answer: *mut u64, answer_room: usize,
    ) -> u64;
    pub fn vendorfinch_write(
        model: *const u8, model_size: usize, text: *const u8, text_size: usize, marks: *const u8, marks_size: usize,
        rows: *const u64, rows_size: usize, cells: *const i64, cells_size: usize, points: *const i64,
        points_size: usize, objects: usize, cells_used: usize, points_used: usize, width: usize,
        out: *mut u8, out_room: usize, index: *mut u64, index_room: usize, seed: u64,
        answer: *mut u64, answer_room: usize,
    ) -> u64;
}
