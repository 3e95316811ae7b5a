//! Reads a sheet on standard input and prints what the program prints for it.

use std::io::{self, Read, Write};

#[allow(dead_code)] // the other calls
mod thunyaworm {
    include!("../../include/thunyaworm.rs");
}

fn print(sheet: &[u8], budget: u32, room: &mut [u8]) -> usize {
    // SAFETY: each pointer comes from a slice and goes with its length, and the slices don't overlap.
    unsafe {
        thunyaworm::thunyaworm_print(
            sheet.as_ptr(),
            sheet.len(),
            budget,
            room.as_mut_ptr(),
            room.len(),
        )
    }
}

fn main() -> io::Result<()> {
    let mut sheet = Vec::new();
    io::stdin().read_to_end(&mut sheet)?;
    let mut room = vec![0; thunyaworm::THUNYAWORM_ROOM];
    let printed = print(&sheet, 1_000_000, &mut room);
    io::stdout().write_all(&room[..printed])
}
