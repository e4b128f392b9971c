/// The number of the interface that this crate is for, `TURGAMYSK_VERSION` of the header.
pub const VERSION: u32 = 1;

mod c {
    unsafe extern "C" {
        pub fn turgamysk_version() -> u32;
    }
}

/// The number of the interface that the archive has.
pub fn version() -> u32 {
    unsafe { c::turgamysk_version() }
}
