//! The exported calls as they stand: a slice is a pointer and then a length. Nothing checks these lines against the archive's own; the
//! tests do, on the same vectors as C's.

#[repr(C)]
pub struct CallTold {
    pub refusal: u8,
    pub offset: usize,
}

#[repr(C)]
pub struct FrameTold {
    pub refusal: u8,
    pub offset: usize,
    pub length: usize,
    pub main_data_begin: usize,
    pub reservoir: usize,
}

#[repr(C)]
pub struct Sizes {
    pub refusal: u8,
    pub offset: usize,
    pub length: usize,
    pub header: usize,
    pub side: usize,
    pub main: usize,
    pub granules: usize,
    pub channels: usize,
    pub rate: u32,
    pub bitrate: u32,
}

extern "C" {
    fn front_end_frame(
        frame: *const u8,
        frame_length: usize,
        reservoir: *mut u8,
        reservoir_size: usize,
        reservoir_length: usize,
        numbers: *mut i32,
        numbers_length: usize,
        rows: *mut u16,
        rows_length: usize,
    ) -> FrameTold;
    fn front_end_slots(
        frame: *const u8,
        frame_length: usize,
        main: *const u8,
        main_length: usize,
        numbers: *mut i32,
        numbers_length: usize,
        rows: *mut u16,
        rows_length: usize,
    ) -> CallTold;
    fn front_end_emptied() -> usize;
    fn front_end_reorder(frame: *const u8, frame_length: usize, slot: usize, numbers: *mut i32, numbers_length: usize) -> CallTold;
    fn front_end_sizes(frame: *const u8, frame_length: usize) -> Sizes;
}

// Each call takes every input. What it asks of its caller is what a slice already promises: memory of that length, and what is written
// is not shared.

pub fn frame(frame: &[u8], reservoir: &mut [u8], length: usize, numbers: &mut [i32], rows: &mut [u16]) -> FrameTold {
    unsafe {
        front_end_frame(
            frame.as_ptr(),
            frame.len(),
            reservoir.as_mut_ptr(),
            reservoir.len(),
            length,
            numbers.as_mut_ptr(),
            numbers.len(),
            rows.as_mut_ptr(),
            rows.len(),
        )
    }
}

pub fn slots(frame: &[u8], main: &[u8], numbers: &mut [i32], rows: &mut [u16]) -> CallTold {
    unsafe {
        front_end_slots(
            frame.as_ptr(),
            frame.len(),
            main.as_ptr(),
            main.len(),
            numbers.as_mut_ptr(),
            numbers.len(),
            rows.as_mut_ptr(),
            rows.len(),
        )
    }
}

pub fn emptied() -> usize {
    unsafe { front_end_emptied() }
}

pub fn reorder(frame: &[u8], slot: usize, numbers: &mut [i32]) -> CallTold {
    unsafe { front_end_reorder(frame.as_ptr(), frame.len(), slot, numbers.as_mut_ptr(), numbers.len()) }
}

pub fn sizes(frame: &[u8]) -> Sizes {
    unsafe { front_end_sizes(frame.as_ptr(), frame.len()) }
}
