//! The proved library's calls, from `libmodem.a`, declared as in `include/hermitian.h`.
//!
//! - [`PROVED`]: encoding and reading back.
//! - [`PROVED_TABLE`]: table decoding; [`PROVED_BELOW`]: with a threshold; [`PROVED_BITS`]: decoding
//!   from bit values.
//! - [`PROVED_SUPERFRAMES`]: building superframes and taking them apart.
//! - [`PROVED_CAPTURES`]: decoding, sorting and making captures.

use crate::trials::{Coding, DecodeBelow, DecodeBits, DecodeTable, Superframes};
use crate::whole_captures::Captures;

extern "C" {
    fn hermitian_encode(
        rate: usize,
        message: *const u8,
        message_length: usize,
        frame: *mut u8,
        frame_length: usize,
        start: usize,
    ) -> u8;

    fn hermitian_read_back(
        rate: usize,
        word: *const u8,
        word_length: usize,
        message: *mut u8,
        message_length: usize,
    ) -> u8;

    fn hermitian_decode_table(
        rate: usize,
        table: *const u8,
        table_length: usize,
        doubt: usize,
        message: *mut u8,
        message_length: usize,
        report: *mut u8,
        report_length: usize,
    ) -> u8;

    fn hermitian_decode_table_below(
        rate: usize,
        table: *const u8,
        table_length: usize,
        threshold: u16,
        most: usize,
        message: *mut u8,
        message_length: usize,
        report: *mut u8,
        report_length: usize,
    ) -> u8;

    fn hermitian_decode_bits(
        rate: usize,
        values: *const i8,
        values_length: usize,
        doubt: usize,
        message: *mut u8,
        message_length: usize,
        report: *mut u8,
        report_length: usize,
    ) -> u8;

    fn hermitian_build_superframe(
        rate: usize,
        messages: *const u8,
        messages_length: usize,
        superframe: *mut u8,
        superframe_length: usize,
    ) -> u8;

    fn hermitian_take_superframe_apart(
        superframe: *const u8,
        superframe_length: usize,
        messages: *mut u8,
        messages_length: usize,
        status: *mut u8,
    ) -> u8;

    fn hermitian_decode_capture(
        capture: *const u8,
        capture_length: usize,
        message: *mut u8,
        message_length: usize,
        report: *mut u8,
        report_length: usize,
    ) -> u8;

    fn hermitian_sort_capture(
        capture: *const u8,
        capture_length: usize,
        sorted: *mut u8,
        sorted_length: usize,
    ) -> u8;

    fn hermitian_make_capture(
        rate: usize,
        doubtful: *const u8,
        doubtful_length: usize,
        table: *const u8,
        table_length: usize,
        capture: *mut u8,
        capture_length: usize,
    ) -> u8;
}

/// The proved library. Its calls ask nothing of their arguments, and Rust's references keep the
/// buffers apart from each other.
pub const PROVED: Coding = Coding {
    encode: |rate, message, frame, start| unsafe {
        let (to, room) = (frame.as_mut_ptr(), frame.len());
        hermitian_encode(
            rate as usize,
            message.as_ptr(),
            message.len(),
            to,
            room,
            start,
        )
    },
    read_back: |rate, word, message| unsafe {
        let (to, room) = (message.as_mut_ptr(), message.len());
        hermitian_read_back(rate as usize, word.as_ptr(), word.len(), to, room)
    },
};

/// The proved library's table decoding.
pub const PROVED_TABLE: DecodeTable = |rate, table, doubt, message, report| unsafe {
    hermitian_decode_table(
        rate as usize,
        table.as_ptr(),
        table.len(),
        doubt as usize,
        message.as_mut_ptr(),
        message.len(),
        report.as_mut_ptr(),
        report.len(),
    )
};

/// The proved library's table decoding with a threshold.
pub const PROVED_BELOW: DecodeBelow = |rate, table, threshold, most, message, report| unsafe {
    hermitian_decode_table_below(
        rate as usize,
        table.as_ptr(),
        table.len(),
        threshold,
        most as usize,
        message.as_mut_ptr(),
        message.len(),
        report.as_mut_ptr(),
        report.len(),
    )
};

/// The proved library's decoding from bit values.
pub const PROVED_BITS: DecodeBits = |rate, values, doubt, message, report| unsafe {
    hermitian_decode_bits(
        rate as usize,
        values.as_ptr(),
        values.len(),
        doubt as usize,
        message.as_mut_ptr(),
        message.len(),
        report.as_mut_ptr(),
        report.len(),
    )
};

/// The proved library's superframes.
pub const PROVED_SUPERFRAMES: Superframes = Superframes {
    build: |rate, messages, frame| unsafe {
        let (to, room) = (frame.as_mut_ptr(), frame.len());
        hermitian_build_superframe(rate as usize, messages.as_ptr(), messages.len(), to, room)
    },
    take_apart: |frame, messages, status| unsafe {
        let (to, room) = (messages.as_mut_ptr(), messages.len());
        hermitian_take_superframe_apart(frame.as_ptr(), frame.len(), to, room, status)
    },
};

/// The proved library's captures.
pub const PROVED_CAPTURES: Captures = Captures {
    decode: |capture, message, report| unsafe {
        let (to, room) = (message.as_mut_ptr(), message.len());
        let (second, other) = (report.as_mut_ptr(), report.len());
        hermitian_decode_capture(capture.as_ptr(), capture.len(), to, room, second, other)
    },
    sort: |capture, out| unsafe {
        let (to, room) = (out.as_mut_ptr(), out.len());
        hermitian_sort_capture(capture.as_ptr(), capture.len(), to, room)
    },
    make: |rate, doubtful, table, out| unsafe {
        hermitian_make_capture(
            rate as usize,
            doubtful.as_ptr(),
            doubtful.len(),
            table.as_ptr(),
            table.len(),
            out.as_mut_ptr(),
            out.len(),
        )
    },
};
