//! The C interface as include/vejgodat.h declares it.

#[repr(C)]
#[derive(Clone, Copy, Debug, PartialEq, Eq)]
pub struct Range {
    pub refusal: u32,
    pub first: u32,
    pub count: u32,
}

#[repr(C)]
#[derive(Clone, Copy, Debug, PartialEq, Eq)]
pub struct Sender {
    pub refusal: u32,
    pub sender: i32,
}

#[repr(C)]
#[derive(Clone, Copy, Debug, PartialEq, Eq)]
pub struct Ranks {
    pub refusal: u32,
    pub count: u32,
    pub smallest: i32,
    pub largest: i32,
}

#[repr(C)]
#[derive(Clone, Copy, Debug, PartialEq, Eq)]
pub struct Length {
    pub refusal: u32,
    pub length: u64,
}

extern "C" {
    pub fn vejgodat_check_table(table: *const u8, table_len: usize) -> u32;
    pub fn vejgodat_table_length(ranks: u32) -> Length;
    pub fn vejgodat_table_range(table: *const u8, table_len: usize, rank: u32) -> Range;
    pub fn vejgodat_write_table(
        ranks: u32,
        first: *const u32,
        first_len: usize,
        count: *const u32,
        count_len: usize,
        out: *mut u8,
        out_len: usize,
    ) -> Length;
    pub fn vejgodat_table_from_leaves(
        ranks: u32,
        leaves: *const u32,
        leaves_len: usize,
        out: *mut u8,
        out_len: usize,
    ) -> Length;
    pub fn vejgodat_sender_of(
        old: *const u8,
        old_len: usize,
        new: *const u8,
        new_len: usize,
        tree: u32,
        receiver: u32,
    ) -> Sender;
    pub fn vejgodat_trees_sent(
        old: *const u8,
        old_len: usize,
        new: *const u8,
        new_len: usize,
        sender: u32,
        receiver: u32,
    ) -> Range;
    pub fn vejgodat_send_set(
        old: *const u8,
        old_len: usize,
        new: *const u8,
        new_len: usize,
        rank: u32,
        out: *mut u32,
        out_len: usize,
    ) -> Ranks;
    pub fn vejgodat_receive_set(
        old: *const u8,
        old_len: usize,
        new: *const u8,
        new_len: usize,
        rank: u32,
        out: *mut u32,
        out_len: usize,
    ) -> Ranks;
    pub fn vejgodat_corners(shape: u32, face: u32) -> u32;
    pub fn vejgodat_check_mesh(mesh: *const u8, mesh_len: usize) -> u32;
}
