//! puremp3 was written for a bitstream-io whose reader has its methods itself; 1.6 keeps them in a trait. This forwards
//! them, and counts the bits that were read, so that a slot which reads too far can be told.
pub use debian::{BigEndian, Endianness, Numeric};

use debian::BitRead;
use std::io::{Read, Result};

pub struct BitReader<R: Read, E: Endianness> {
    inner: debian::BitReader<R, E>,
    place: u64,
}

impl<R: Read, E: Endianness> BitReader<R, E> {
    pub fn endian(reader: R, endian: E) -> Self {
        BitReader {
            inner: debian::BitReader::endian(reader, endian),
            place: 0,
        }
    }

    pub fn read_bit(&mut self) -> Result<bool> {
        let bit = self.inner.read_bit()?;
        self.place += 1;
        Ok(bit)
    }

    pub fn read<U: Numeric>(&mut self, bits: u32) -> Result<U> {
        let value = self.inner.read(bits)?;
        self.place += u64::from(bits);
        Ok(value)
    }

    pub fn skip(&mut self, bits: u32) -> Result<()> {
        self.inner.skip(bits)?;
        self.place += u64::from(bits);
        Ok(())
    }

    /// Bits read so far. Not in bitstream-io.
    pub fn place(&self) -> u64 {
        self.place
    }
}
