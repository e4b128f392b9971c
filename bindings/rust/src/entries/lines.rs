use super::WriteAnswer;

mod c {
    use super::*;

    unsafe extern "C" {
        pub fn turgamysk_link_line(
            tx: *const u8,
            tx_length: usize,
            coins: *const u8,
            coins_length: usize,
            out: *mut u8,
            out_length: usize,
        ) -> WriteAnswer;
        pub fn turgamysk_name_line(
            file: *const u8,
            length: usize,
            out: *mut u8,
            out_length: usize,
        ) -> WriteAnswer;
    }
}

/// The line of the link report of two sheets, into the first bytes of `out`: all of it, or nothing.
pub fn link_line(tx: &[u8], coins: &[u8], out: &mut [u8]) -> WriteAnswer {
    let (tx_start, coins_start) = (tx.as_ptr(), coins.as_ptr());
    unsafe {
        c::turgamysk_link_line(
            tx_start,
            tx.len(),
            coins_start,
            coins.len(),
            out.as_mut_ptr(),
            out.len(),
        )
    }
}

/// The line of the name report of a key and a record, into the first bytes of `out`: all of it, or nothing.
pub fn name_line(file: &[u8], out: &mut [u8]) -> WriteAnswer {
    unsafe { c::turgamysk_name_line(file.as_ptr(), file.len(), out.as_mut_ptr(), out.len()) }
}
