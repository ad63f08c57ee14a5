//! The proved export of `packets`, called as C calls it.

#[link(name = "packets", kind = "static")]
extern "C" {
    fn spindlewren_edi(
        packet: *const u8,
        packet_len: usize,
        choice: u8,
        out: *mut u8,
        out_len: usize,
    ) -> u8;
}

/// The choice of sync word is 0 for 07 3A B6; any other is F8 C5 49.
pub fn regenerate(packet: &[u8], choice: u8, out: &mut [u8]) -> u8 {
    // SAFETY: pointer and length are of one slice, and the mutable slice overlaps no other.
    unsafe {
        spindlewren_edi(
            packet.as_ptr(),
            packet.len(),
            choice,
            out.as_mut_ptr(),
            out.len(),
        )
    }
}
