//! Stand-in for `binrw`: fields read and written one after the other, without padding.
//! It has the field types that postprocess.rs uses, and no others.

use std::io::{Read, Result, Write};

pub use binrw_macros::binrw;

pub type BinResult<T> = Result<T>;

#[derive(Clone, Copy, Debug, PartialEq)]
pub enum Endian {
    Big,
    Little,
}

pub trait BinRead: Sized {
    fn read_options<R: Read>(reader: &mut R, endian: Endian, args: ()) -> BinResult<Self>;
}

pub trait BinWrite {
    fn write_options<W: Write>(&self, writer: &mut W, endian: Endian, args: ()) -> BinResult<()>;
}

macro_rules! numbers {
    ($($number:ty)*) => { $(
        impl BinRead for $number {
            fn read_options<R: Read>(reader: &mut R, endian: Endian, (): ()) -> BinResult<Self> {
                let mut bytes = [0; size_of::<$number>()];
                reader.read_exact(&mut bytes)?;
                Ok(match endian {
                    Endian::Big => <$number>::from_be_bytes(bytes),
                    Endian::Little => <$number>::from_le_bytes(bytes),
                })
            }
        }

        impl BinWrite for $number {
            fn write_options<W: Write>(
                &self, writer: &mut W, endian: Endian, (): ()
            ) -> BinResult<()> {
                writer.write_all(&match endian {
                    Endian::Big => self.to_be_bytes(),
                    Endian::Little => self.to_le_bytes(),
                })
            }
        }
    )* };
}

numbers!(u8 u16 u32);

impl<const N: usize> BinRead for [u8; N] {
    fn read_options<R: Read>(reader: &mut R, _: Endian, (): ()) -> BinResult<Self> {
        let mut bytes = [0; N];
        reader.read_exact(&mut bytes)?;
        Ok(bytes)
    }
}

impl<const N: usize> BinWrite for [u8; N] {
    fn write_options<W: Write>(&self, writer: &mut W, _: Endian, (): ()) -> BinResult<()> {
        writer.write_all(self)
    }
}

/// `None` is written as nothing. (postprocess.rs reads no options.)
impl BinWrite for Option<u32> {
    fn write_options<W: Write>(&self, writer: &mut W, endian: Endian, (): ()) -> BinResult<()> {
        match self {
            Some(number) => number.write_options(writer, endian, ()),
            None => Ok(()),
        }
    }
}
