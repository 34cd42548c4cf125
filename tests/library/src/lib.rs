//! The proved library's functions as safe Rust, their answers in the words of the cases, and random inputs for tests.
pub mod answer;
pub mod pigeonholes;
pub mod random;
pub mod reads;
pub mod scenarios;
pub mod searches;
pub mod slow;

mod ffi {
    extern "C" {
        pub fn tejorva_derive(
            table: *const u8,
            table_len: usize,
            list: *const u8,
            list_len: usize,
            target: u64,
        ) -> u64;
        pub fn tejorva_open(file: *const u8, file_len: usize) -> u64;
        pub fn tejorva_search(
            file: *const u8,
            file_len: usize,
            trace: *mut u8,
            trace_len: usize,
        ) -> u64;
        pub fn tejorva_search_short(
            file: *const u8,
            file_len: usize,
            trace: *mut u8,
            trace_len: usize,
        ) -> u64;
        pub fn tejorva_replay(
            file: *const u8,
            file_len: usize,
            trace: *const u8,
            trace_len: usize,
        ) -> u64;
    }
}

/// Whether row `target` of a table is derivable from the listed rows, as the packed number.
pub fn derive(table: &[u8], list: &[u8], target: u64) -> u64 {
    unsafe {
        ffi::tejorva_derive(
            table.as_ptr(),
            table.len(),
            list.as_ptr(),
            list.len(),
            target,
        )
    }
}

/// Whether a scenario file is accepted, as the packed number.
pub fn open(file: &[u8]) -> u64 {
    unsafe { ffi::tejorva_open(file.as_ptr(), file.len()) }
}

/// The verdict on a scenario file, as the packed number; a broken claim's trace stands at the buffer's front.
pub fn search(file: &[u8], buffer: &mut [u8]) -> u64 {
    unsafe {
        ffi::tejorva_search(
            file.as_ptr(),
            file.len(),
            buffer.as_mut_ptr(),
            buffer.len(),
        )
    }
}

/// The verdict on a scenario file by the short list, in the same form.
pub fn search_short(file: &[u8], buffer: &mut [u8]) -> u64 {
    unsafe {
        ffi::tejorva_search_short(
            file.as_ptr(),
            file.len(),
            buffer.as_mut_ptr(),
            buffer.len(),
        )
    }
}

/// Which claim a trace breaks, step by step through a scenario file, as the packed number.
pub fn replay(file: &[u8], trace: &[u8]) -> u64 {
    unsafe { ffi::tejorva_replay(file.as_ptr(), file.len(), trace.as_ptr(), trace.len()) }
}
