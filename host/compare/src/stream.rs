//! Generated texts as a file, for programs that are not written in Rust.

use std::fs::File;
use std::io::{self, BufWriter, Write};

/// The most bytes that a file is given.
const MOST: usize = 64 << 20;

/// How much was written.
pub struct Written {
    /// How many texts.
    pub texts: u64,
    /// How many bytes in all.
    pub bytes: usize,
}

/// Writes the texts of `count` seeds, from `seed` on, as records: the length (32 bits, little-endian), then the text. It stops early rather
/// than write more than 64 MiB.
pub fn write(name: &str, seed: u64, count: u64) -> io::Result<Written> {
    let mut file = BufWriter::new(File::create(name)?);
    let mut written = Written { texts: 0, bytes: 0 };
    for number in 0..count {
        let text = plans::generated(seed.wrapping_add(number)).text;
        if written.bytes + 4 + text.len() > MOST {
            break;
        }
        file.write_all(&(text.len() as u32).to_le_bytes())?;
        file.write_all(&text)?;
        written.bytes += 4 + text.len();
        written.texts += 1;
    }
    file.flush()?;
    Ok(written)
}
