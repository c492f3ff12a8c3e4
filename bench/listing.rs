//! The listing program in plain Rust, over the emulator's listing: an image on standard input, its listing on standard output. `bench/run`
//! measures it beside the proved program, with the same two buffers. With an argument it writes an image with so many of the first
//! instruction words.

#[allow(dead_code)] // the rest is for the benchmark of the calls
mod emulator;

use std::io::{self, Read, Write};

fn main() -> io::Result<()> {
    if let Some(count) = std::env::args().nth(1).and_then(|count| count.parse().ok()) {
        return io::stdout().lock().write_all(&image(count));
    }
    let mut input = [0; 60_006];
    let mut read = 0;
    loop {
        match io::stdin().lock().read(&mut input[read..])? {
            0 => break,
            count => read += count,
        }
    }
    let mut out = [0; 840_000];
    let length = emulator::image::listing(&input[..read], &mut out);
    io::stdout().lock().write_all(&out[..length])
}

/// An image that starts at address 0.
fn image(count: u16) -> Vec<u8> {
    let mut image = b"0000\n".to_vec();
    (0..count).for_each(|word| image.extend(word.to_le_bytes()));
    image
}
