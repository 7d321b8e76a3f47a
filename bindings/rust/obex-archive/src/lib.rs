//! A record's body as blocks of 512 bytes, each with its own check, and back, by the proved functions
//! of `archive_c`. `docs/ARCHIVE.md` of the project has the form, byte by byte.
//!
//! ```
//! let blocks = obex_archive::write(b"pump 7 ok\n")?;
//! assert_eq!(blocks.len(), 512);
//! assert_eq!(obex_archive::read(&blocks)?, b"pump 7 ok\n");
//! # Ok::<(), obex_archive::Fault>(())
//! ```
//!
//! A record without a body is not blocked, which is another thing than an empty body. The check finds
//! damage, and does not show that nobody made it anew.
#![warn(missing_docs)]
use std::error::Error;
use std::fmt::{self, Display, Formatter};

/// The bytes of a block.
pub const BLOCK: usize = 512;
/// The bytes of a body that a block holds.
pub const PAYLOAD: usize = 490;

// As `crates/archive_c/src/lib.rt` exports them; nothing checks that, so it is trusted. A slice
// passes as its pointer and then its length.
unsafe extern "C" {
    fn archive_write(source: *const u8, source_length: usize, target: *mut u8, target_length: usize) -> usize;
    fn archive_read(source: *const u8, source_length: usize, target: *mut u8, target_length: usize) -> usize;
}

/// What is wrong with blocks, or with a body that is to be written.
#[derive(Debug, Clone, Copy, PartialEq, Eq, Hash)]
#[repr(u8)]
pub enum Fault {
    /// The check of a block is wrong.
    Damaged = 11,
    /// The number of a block is not the next.
    Misplaced = 12,
    /// A length, a padding or an end mark breaks the rules; or a body is over 4,294,967,295 bytes.
    Malformed = 13,
}

impl Fault {
    /// The number of the fault in `docs/ARCHIVE.md`.
    pub fn number(self) -> u8 {
        self as u8
    }
}

impl Display for Fault {
    fn fmt(&self, f: &mut Formatter<'_>) -> fmt::Result {
        f.write_str(match self {
            Fault::Damaged => "the check of a block is wrong",
            Fault::Misplaced => "the number of a block is not the next",
            Fault::Malformed => "a length, a padding or an end mark breaks the rules",
        })?;
        write!(f, " ({})", self.number())
    }
}

impl Error for Fault {}

/// Returns the blocks of `body`. An empty body takes one block.
pub fn write(body: &[u8]) -> Result<Vec<u8>, Fault> {
    let mut blocks = vec![0; BLOCK * body.len().div_ceil(PAYLOAD).max(1)];
    // SAFETY: the arguments are as declared. The function reads `body`, writes `blocks`, and nothing else (proved).
    let number = unsafe { archive_write(body.as_ptr(), body.len(), blocks.as_mut_ptr(), blocks.len()) };
    told(number).map(|()| blocks)
}

/// Returns the body of `blocks`, which are those of one record and nothing else; or the first fault.
pub fn read(blocks: &[u8]) -> Result<Vec<u8>, Fault> {
    let mut body = vec![0; PAYLOAD * (blocks.len() / BLOCK)];
    // SAFETY: as above.
    let number = unsafe { archive_read(blocks.as_ptr(), blocks.len(), body.as_mut_ptr(), body.len()) };
    told(number)?;
    // Sound blocks are whole, all but the last are full, and the last has its length in front.
    let last = blocks.len() - BLOCK;
    let used = usize::from(u16::from_be_bytes([blocks[last], blocks[last + 1]]) & 0x7FFF);
    body.truncate(PAYLOAD * (last / BLOCK) + used);
    Ok(body)
}

/// The stores here are long enough, so 10 is not among the numbers.
fn told(number: usize) -> Result<(), Fault> {
    match number {
        0 => Ok(()),
        11 => Err(Fault::Damaged),
        12 => Err(Fault::Misplaced),
        _ => Err(Fault::Malformed),
    }
}

#[cfg(test)]
mod tests {
    use super::*;

    #[test]
    fn every_length_comes_back() {
        for n in (0..1_500).chain([48 << 10, 100_000]) {
            let body: Vec<u8> = (0..n).map(|i| (i * 31 + n) as u8).collect();
            let blocks = write(&body).unwrap();
            assert_eq!(blocks.len() % BLOCK, 0);
            assert_eq!(read(&blocks).unwrap(), body);
        }
    }

    #[test]
    fn each_fault_is_told() {
        let blocks = write(&[7; 1_000]).unwrap();
        assert_eq!(blocks.len(), 3 * BLOCK);
        for at in 0..blocks.len() {
            let mut damaged = blocks.clone();
            damaged[at] ^= 1;
            assert_eq!(read(&damaged), Err(Fault::Damaged), "byte {at}");
        }
        assert_eq!(read(&[&blocks[512..1024], &blocks[..512], &blocks[1024..]].concat()), Err(Fault::Misplaced));
        assert_eq!(read(&blocks[..1024]), Err(Fault::Malformed));
        assert_eq!(read(&blocks[..1500]), Err(Fault::Malformed));
        assert_eq!(read(&[]), Err(Fault::Malformed));
    }
}
