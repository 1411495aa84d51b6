//! puremp3 was written for a bitstream-io whose reader has its methods itself; 1.6 keeps them in a trait.
pub use debian::{BigEndian, Endianness, Numeric};

use debian::BitRead;
use std::io::{Read, Result};

pub struct BitReader<R: Read, E: Endianness>(debian::BitReader<R, E>);

impl<R: Read, E: Endianness> BitReader<R, E> {
    #[inline(always)]
    pub fn endian(reader: R, endian: E) -> Self {
        BitReader(debian::BitReader::endian(reader, endian))
    }

    #[inline(always)]
    pub fn read_bit(&mut self) -> Result<bool> {
        self.0.read_bit()
    }

    #[inline(always)]
    pub fn read<U: Numeric>(&mut self, bits: u32) -> Result<U> {
        self.0.read(bits)
    }

    #[inline(always)]
    pub fn skip(&mut self, bits: u32) -> Result<()> {
        self.0.skip(bits)
    }
}
