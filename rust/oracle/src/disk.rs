//! A disk without end that always reads in full. It notes what it was asked for, and what it hands out tells where it lay.
use binrw::io::{Read, Result, Seek, SeekFrom};

#[derive(Default)]
pub struct Disk {
    at: u64,
    /// Position and length of each read.
    pub asked: Vec<(u64, u64)>,
}

/// The byte at a position: never 0, which is what a hole delivers.
pub fn byte(position: u64) -> u8 {
    let mixed = position.wrapping_mul(0x9e37_79b9_7f4a_7c15);
    (mixed >> 56) as u8 | 1
}

impl Read for Disk {
    fn read(&mut self, buf: &mut [u8]) -> Result<usize> {
        self.asked.push((self.at, buf.len() as u64));
        for b in buf.iter_mut() {
            *b = byte(self.at);
            self.at = self.at.wrapping_add(1);
        }
        Ok(buf.len())
    }
}

impl Seek for Disk {
    fn seek(&mut self, to: SeekFrom) -> Result<u64> {
        match to {
            SeekFrom::Start(n) => self.at = n,
            _ => unreachable!("the reader seeks from the start only"),
        }
        Ok(self.at)
    }
}

/// A disk that hands out nothing.
pub struct Dry;

impl Read for Dry {
    fn read(&mut self, _buf: &mut [u8]) -> Result<usize> {
        Ok(0)
    }
}

impl Seek for Dry {
    fn seek(&mut self, _to: SeekFrom) -> Result<u64> {
        Ok(0)
    }
}
