//! The C functions of libmexaldor. `mexaldor.h` documents what each of them requires. The crate
//! `mexaldor` wraps them in safe functions.
#![no_std]

/// The status of a call, and the length of its complete output in bytes.
#[repr(C)]
#[derive(Clone, Copy, Debug)]
pub struct mexaldor_answer {
    /// 0, or a status for `mexaldor_error`.
    pub status: u32,
    /// The length of the complete output.
    pub length: usize,
}

extern "C" {
    /// Makes the JSON object of a file.
    pub fn mexaldor_read(
        file: *const u8,
        length: usize,
        lenient: bool,
        limit: u64,
        out: *mut u8,
        room: usize,
    ) -> mexaldor_answer;
    /// Makes the JSON object of the parts of a file.
    pub fn mexaldor_check(
        file: *const u8,
        length: usize,
        out: *mut u8,
        room: usize,
    ) -> mexaldor_answer;
    /// Erases the locations of a file in place.
    pub fn mexaldor_erase_locations(file: *mut u8, length: usize, force_blank: bool) -> u32;
    /// Erases the GPS data of Exif in place.
    pub fn mexaldor_erase_gps(file: *mut u8, length: usize) -> u32;
    /// Makes a copy of a file without its metadata.
    pub fn mexaldor_scrub(
        file: *const u8,
        length: usize,
        out: *mut u8,
        room: usize,
    ) -> mexaldor_answer;
    /// Sets one field in place.
    pub fn mexaldor_set(
        file: *mut u8,
        length: usize,
        assignment: *const u8,
        assignment_length: usize,
    ) -> u32;
    /// Gives the text of a status.
    pub fn mexaldor_error(status: u32, out: *mut u8, room: usize) -> usize;
}
