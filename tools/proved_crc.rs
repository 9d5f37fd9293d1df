//! Prints the CRC-32 of standard input as the proved checksum has it. It is linked with the library that
//! `tools/build` makes.

use std::io::{self, Read};

extern "C" {
    // A slice crosses as a pointer and a length.
    fn record_crc32(bytes: *const u8, length: usize) -> u32;
}

fn main() -> io::Result<()> {
    let mut bytes = Vec::new();
    io::stdin().read_to_end(&mut bytes)?;
    // The function only reads the bytes of the slice.
    let sum = unsafe { record_crc32(bytes.as_ptr(), bytes.len()) };
    println!("{sum:08X}");
    Ok(())
}
