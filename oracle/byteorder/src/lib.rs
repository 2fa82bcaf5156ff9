//! Stands in for the crate byteorder: what storage/page.rs uses of it.
use std::io::{Read, Result, Write};

pub trait ByteOrder {
    fn u16_from(bytes: [u8; 2]) -> u16;
    fn u16_to(value: u16) -> [u8; 2];
}

pub enum BigEndian {}

impl ByteOrder for BigEndian {
    fn u16_from(bytes: [u8; 2]) -> u16 {
        u16::from_be_bytes(bytes)
    }

    fn u16_to(value: u16) -> [u8; 2] {
        value.to_be_bytes()
    }
}

pub trait ReadBytesExt: Read {
    fn read_u16<O: ByteOrder>(&mut self) -> Result<u16> {
        let mut bytes = [0; 2];
        self.read_exact(&mut bytes)?;
        Ok(O::u16_from(bytes))
    }
}

impl<R: Read> ReadBytesExt for R {}

pub trait WriteBytesExt: Write {
    fn write_u16<O: ByteOrder>(&mut self, value: u16) -> Result<()> {
        self.write_all(&O::u16_to(value))
    }
}

impl<W: Write> WriteBytesExt for W {}
