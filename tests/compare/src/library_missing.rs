//! Stands in for the proved library's calls where it is missing.

const MISSING: &str = "target/lib/libzenkorv.a is missing: run `tools/library` first";

/// Whether the library is linked; it isn't.
pub fn linked() -> Result<(), String> {
    Err(MISSING.to_string())
}

/// There is nothing to read with.
pub fn read(_: &[u8], _: &mut [u8], _: &mut [u32]) -> u8 {
    panic!("{MISSING}")
}

/// There is nothing to run with.
pub fn run(_: &mut [u8], _: &mut [u32], _: u16) -> u32 {
    panic!("{MISSING}")
}

/// There is nothing to make a stretch with.
pub fn stretch(_: &mut [u8], _: &mut [u32], _: u16) -> u32 {
    panic!("{MISSING}")
}

/// There is nothing to make a step with.
pub fn step(_: &mut [u8], _: &mut [u32]) -> u16 {
    panic!("{MISSING}")
}

/// There is nothing to write with.
pub fn write(_: &[u8], _: &[u32], _: &mut [u8]) -> u32 {
    panic!("{MISSING}")
}

/// There is nothing to find a segment with.
pub fn segment(_: &[u8], _: &[u32], _: u8, _: &mut u16, _: &mut u16) -> u8 {
    panic!("{MISSING}")
}

/// There is nothing to check with.
pub fn check(_: &[u8], _: u8, _: u8, _: u8, _: u16) -> u32 {
    panic!("{MISSING}")
}

/// There is nothing to restart with.
pub fn restart(_: &mut [u8]) -> u8 {
    panic!("{MISSING}")
}

/// There is nothing to run an image with.
pub fn entry(_: &[u8], _: u16, _: &mut [u8]) -> u8 {
    panic!("{MISSING}")
}

/// There is nothing to log with.
pub fn log(_: &mut [u8], _: &mut [u32], _: &mut [u8], _: &mut u16, _: &mut u16) -> u32 {
    panic!("{MISSING}")
}
