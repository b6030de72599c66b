//! Stand-in for `commonware-codec`: writing a message into a buffer.
//!
//! Only requests are ever written, into the link. Reading, and the bytes of a
//! record, exist for the compiler and never run.

use bytes::{BufMut, Bytes};
use std::ops::RangeFull;

#[derive(Clone, Copy, Debug, PartialEq, Eq)]
pub enum Error {
    EndOfBuffer,
    Invalid(&'static str, &'static str),
}

/// A buffer that bytes are read from.
pub trait Buf {
    fn take(&mut self, count: usize) -> Option<Vec<u8>>;
}

/// A buffer that may take whole records without copying; here it is a plain one.
pub trait BufsMut: BufMut {}

pub trait Write {
    fn write(&self, buf: &mut impl BufMut);

    fn write_bufs(&self, buf: &mut impl BufsMut) {
        self.write(buf);
    }
}

pub trait EncodeSize {
    fn encode_size(&self) -> usize;

    fn encode_inline_size(&self) -> usize {
        self.encode_size()
    }
}

pub trait FixedSize {
    const SIZE: usize;
}

pub trait MaxEncodeSize {
    const MAX_ENCODE_SIZE: usize;
}

pub trait Read: Sized {
    type Cfg;

    fn read_cfg(buf: &mut impl Buf, cfg: &Self::Cfg) -> Result<Self, Error>;
}

pub trait ReadExt: Read<Cfg = ()> {
    fn read(buf: &mut impl Buf) -> Result<Self, Error> {
        Self::read_cfg(buf, &())
    }
}

impl<T: Read<Cfg = ()>> ReadExt for T {}

pub mod varint {
    pub const MAX_U32_VARINT_SIZE: usize = 5;
}

macro_rules! number {
    ($number:ty) => {
        impl FixedSize for $number {
            const SIZE: usize = size_of::<$number>();
        }

        impl Write for $number {
            fn write(&self, buf: &mut impl BufMut) {
                buf.put_slice(&self.to_be_bytes());
            }
        }

        impl EncodeSize for $number {
            fn encode_size(&self) -> usize {
                Self::SIZE
            }
        }

        impl Read for $number {
            type Cfg = ();

            fn read_cfg(buf: &mut impl Buf, _: &()) -> Result<Self, Error> {
                let bytes = buf.take(Self::SIZE).ok_or(Error::EndOfBuffer)?;
                Ok(bytes.iter().fold(0, |n: $number, byte| {
                    n.wrapping_shl(8) | <$number>::from(*byte)
                }))
            }
        }
    };
}

number!(u8);
number!(u64);

/// Which lengths a record may have when it is read.
#[derive(Clone, Copy, Debug)]
pub struct AnyLength;

impl From<RangeFull> for AnyLength {
    fn from(_: RangeFull) -> Self {
        Self
    }
}

impl Write for Bytes {
    fn write(&self, _: &mut impl BufMut) {
        unreachable!("a record's bytes are not written: the engine under comparison serves nobody");
    }
}

impl EncodeSize for Bytes {
    fn encode_size(&self) -> usize {
        self.len()
    }
}

impl Read for Bytes {
    type Cfg = AnyLength;

    fn read_cfg(_: &mut impl Buf, _: &AnyLength) -> Result<Self, Error> {
        unreachable!("a record's bytes are not read: responses are handed to the handler");
    }
}
