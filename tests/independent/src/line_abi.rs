//! The proved exports of `lines`, called as C calls them.

use crate::line::Parts;

#[link(name = "lines", kind = "static")]
extern "C" {
    fn spindlewren_line_out(
        frame: *const u8,
        frame_len: usize,
        variant: usize,
        management: *const u8,
        management_len: usize,
        supervision: *const u8,
        supervision_len: usize,
        synchronising: *const u8,
        synchronising_len: usize,
        signalling: *const u8,
        signalling_len: usize,
        output: *mut u8,
        output_len: usize,
    ) -> u8;
    fn spindlewren_line_back(
        output: *const u8,
        output_len: usize,
        variant: usize,
        information: *mut u8,
        information_len: usize,
        management: *mut u8,
        management_len: usize,
        supervision: *mut u8,
        supervision_len: usize,
        synchronising: *mut u8,
        synchronising_len: usize,
        signalling: *mut u8,
        signalling_len: usize,
        check: *mut u8,
        check_len: usize,
    ) -> u8;
    fn spindlewren_line_rows(
        output: *const u8,
        output_len: usize,
        variant: usize,
        clean: *mut u8,
        clean_len: usize,
    ) -> u8;
    fn spindlewren_line_frame(
        information: *const u8,
        information_len: usize,
        variant: usize,
        choice: u8,
        level: u8,
        frame: *mut u8,
        frame_len: usize,
    ) -> u8;
    fn spindlewren_check_bytes(
        information: *const u8,
        information_len: usize,
        check: *mut u8,
        check_len: usize,
    ) -> u8;
    fn spindlewren_test_row(
        row: *const u8,
        row_len: usize,
        check: usize,
        clean: *mut u8,
        clean_len: usize,
    ) -> u8;
}

// SAFETY, for each call below: pointer and length are of one slice, and a mutable slice overlaps no other.

pub fn out(frame: &[u8], variant: usize, parts: &Parts, output: &mut [u8]) -> u8 {
    unsafe {
        spindlewren_line_out(
            frame.as_ptr(),
            frame.len(),
            variant,
            parts.management.as_ptr(),
            parts.management.len(),
            parts.supervision.as_ptr(),
            parts.supervision.len(),
            parts.synchronising.as_ptr(),
            parts.synchronising.len(),
            parts.signalling.as_ptr(),
            parts.signalling.len(),
            output.as_mut_ptr(),
            output.len(),
        )
    }
}

/// Information, management, supervision, synchronising, signalling and check bytes are lent in this order.
pub fn back(output: &[u8], variant: usize, parts: &mut [&mut [u8]; 6]) -> u8 {
    let [information, management, supervision, synchronising, signalling, check] = parts;
    unsafe {
        spindlewren_line_back(
            output.as_ptr(),
            output.len(),
            variant,
            information.as_mut_ptr(),
            information.len(),
            management.as_mut_ptr(),
            management.len(),
            supervision.as_mut_ptr(),
            supervision.len(),
            synchronising.as_mut_ptr(),
            synchronising.len(),
            signalling.as_mut_ptr(),
            signalling.len(),
            check.as_mut_ptr(),
            check.len(),
        )
    }
}

pub fn rows(output: &[u8], variant: usize, clean: &mut [u8]) -> u8 {
    unsafe {
        spindlewren_line_rows(
            output.as_ptr(),
            output.len(),
            variant,
            clean.as_mut_ptr(),
            clean.len(),
        )
    }
}

pub fn frame(information: &[u8], variant: usize, choice: u8, level: u8, frame: &mut [u8]) -> u8 {
    unsafe {
        spindlewren_line_frame(
            information.as_ptr(),
            information.len(),
            variant,
            choice,
            level,
            frame.as_mut_ptr(),
            frame.len(),
        )
    }
}

pub fn check_bytes(information: &[u8], check: &mut [u8]) -> u8 {
    unsafe {
        spindlewren_check_bytes(
            information.as_ptr(),
            information.len(),
            check.as_mut_ptr(),
            check.len(),
        )
    }
}

pub fn test_row(row: &[u8], check: usize, clean: &mut [u8]) -> u8 {
    unsafe {
        spindlewren_test_row(
            row.as_ptr(),
            row.len(),
            check,
            clean.as_mut_ptr(),
            clean.len(),
        )
    }
}
