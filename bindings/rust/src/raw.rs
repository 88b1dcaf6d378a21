//! The library's functions as they are: plain numbers of any value, slices that the caller lends, an answer of numbers.
//!
//! Every call gets its answer; nothing here panics. `include/gatemurmur.h` tells what each number means.

/// A segment record: kind 0 Numeric, 1 Alphanumeric, 2 Byte name the part of a text from `start` on, of `length`
/// characters, with `assign` 0; kind 3 ECI has `start` and `length` 0, and its number in `assign`.
#[repr(C)]
#[derive(Clone, Copy, PartialEq, Eq, Debug, Default)]
pub struct Record {
    pub kind: u64,
    pub start: u64,
    pub length: u64,
    pub assign: u64,
}

/// What an encoding function answers: number 0 and a label's version, level and mask, or a refusal's number and details.
#[repr(C)]
#[derive(Clone, Copy, PartialEq, Eq, Debug, Default)]
pub struct Answer {
    pub number: u32,
    pub version: u8,
    pub level: u8,
    pub mask: u8,
    pub first: u64,
    pub second: u64,
}

/// What [`read`] answers: number 0 and what the label has, or a refusal's number and details.
#[repr(C)]
#[derive(Clone, Copy, PartialEq, Eq, Debug, Default)]
pub struct Reading {
    pub number: u32,
    pub version: u8,
    pub level: u8,
    pub mask: u8,
    pub records: u64,
    pub text: u64,
    pub first: u64,
    pub second: u64,
}

/// Bytes of the largest grid, 177 × 177.
pub const GRID: usize = 31_329;
/// Bytes of scratch that a call takes.
pub const SCRATCH: usize = 40_000;
/// The most records that a list may have.
pub const RECORDS: usize = 2_048;
/// The most characters that a label has.
pub const TEXT: usize = 7_089;
/// The mask number that asks for the automatic choice.
pub const MASK_AUTO: u8 = 8;

// A slice is two parameters in C, the pointer and the length.
extern "C" {
    fn gatemurmur_encode_text(
        text: *const u8,
        text_length: usize,
        level: u8,
        minversion: u8,
        maxversion: u8,
        mask: u8,
        boostecl: bool,
        grid: *mut u8,
        grid_length: usize,
        scratch: *mut u8,
        scratch_length: usize,
    ) -> Answer;

    fn gatemurmur_encode_binary(
        data: *const u8,
        data_length: usize,
        level: u8,
        minversion: u8,
        maxversion: u8,
        mask: u8,
        boostecl: bool,
        grid: *mut u8,
        grid_length: usize,
        scratch: *mut u8,
        scratch_length: usize,
    ) -> Answer;

    fn gatemurmur_encode_segments(
        text: *const u8,
        text_length: usize,
        records: *const Record,
        records_length: usize,
        level: u8,
        minversion: u8,
        maxversion: u8,
        mask: u8,
        boostecl: bool,
        grid: *mut u8,
        grid_length: usize,
        scratch: *mut u8,
        scratch_length: usize,
    ) -> Answer;

    fn gatemurmur_encode_codewords(
        version: u8,
        level: u8,
        data: *const u8,
        data_length: usize,
        mask: u8,
        grid: *mut u8,
        grid_length: usize,
        scratch: *mut u8,
        scratch_length: usize,
    ) -> Answer;

    fn gatemurmur_get_module(grid: *const u8, grid_length: usize, size: usize, x: i32, y: i32) -> bool;

    fn gatemurmur_read(
        grid: *const u8,
        grid_length: usize,
        size: usize,
        text: *mut u8,
        text_length: usize,
        records: *mut Record,
        records_length: usize,
        scratch: *mut u8,
        scratch_length: usize,
    ) -> Reading;
}

/// Draws a label of a text, any bytes, in the kind that the text rule gives it.
#[allow(clippy::too_many_arguments)]
pub fn encode_text(
    text: &[u8],
    level: u8,
    minversion: u8,
    maxversion: u8,
    mask: u8,
    boostecl: bool,
    grid: &mut [u8],
    scratch: &mut [u8],
) -> Answer {
    // Safety, here and below: each pointer comes with its slice's own length, and a slice that is written is no other's.
    unsafe {
        gatemurmur_encode_text(
            text.as_ptr(),
            text.len(),
            level,
            minversion,
            maxversion,
            mask,
            boostecl,
            grid.as_mut_ptr(),
            grid.len(),
            scratch.as_mut_ptr(),
            scratch.len(),
        )
    }
}

/// Draws a label of binary data, as one Byte segment.
#[allow(clippy::too_many_arguments)]
pub fn encode_binary(
    data: &[u8],
    level: u8,
    minversion: u8,
    maxversion: u8,
    mask: u8,
    boostecl: bool,
    grid: &mut [u8],
    scratch: &mut [u8],
) -> Answer {
    unsafe {
        gatemurmur_encode_binary(
            data.as_ptr(),
            data.len(),
            level,
            minversion,
            maxversion,
            mask,
            boostecl,
            grid.as_mut_ptr(),
            grid.len(),
            scratch.as_mut_ptr(),
            scratch.len(),
        )
    }
}

/// Draws a label of a list of records over one text.
#[allow(clippy::too_many_arguments)]
pub fn encode_segments(
    text: &[u8],
    records: &[Record],
    level: u8,
    minversion: u8,
    maxversion: u8,
    mask: u8,
    boostecl: bool,
    grid: &mut [u8],
    scratch: &mut [u8],
) -> Answer {
    unsafe {
        gatemurmur_encode_segments(
            text.as_ptr(),
            text.len(),
            records.as_ptr(),
            records.len(),
            level,
            minversion,
            maxversion,
            mask,
            boostecl,
            grid.as_mut_ptr(),
            grid.len(),
            scratch.as_mut_ptr(),
            scratch.len(),
        )
    }
}

/// Draws a label of data codewords.
pub fn encode_codewords(version: u8, level: u8, data: &[u8], mask: u8, grid: &mut [u8], scratch: &mut [u8]) -> Answer {
    unsafe {
        gatemurmur_encode_codewords(
            version,
            level,
            data.as_ptr(),
            data.len(),
            mask,
            grid.as_mut_ptr(),
            grid.len(),
            scratch.as_mut_ptr(),
            scratch.len(),
        )
    }
}

/// Whether the module in column `x` and row `y` of a grid is dark.
pub fn get_module(grid: &[u8], size: usize, x: i32, y: i32) -> bool {
    unsafe { gatemurmur_get_module(grid.as_ptr(), grid.len(), size, x, y) }
}

/// Reads the label that a grid shows, its characters into `text` and its records into `records`.
pub fn read(grid: &[u8], size: usize, text: &mut [u8], records: &mut [Record], scratch: &mut [u8]) -> Reading {
    unsafe {
        gatemurmur_read(
            grid.as_ptr(),
            grid.len(),
            size,
            text.as_mut_ptr(),
            text.len(),
            records.as_mut_ptr(),
            records.len(),
            scratch.as_mut_ptr(),
            scratch.len(),
        )
    }
}
