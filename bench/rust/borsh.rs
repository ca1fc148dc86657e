//! Stands for the crate borsh where it is not at hand. What upstream's smol_str calls of it: a size as four bytes, the
//! lowest first, and then so many bytes.
pub use std::io;

use io::{ErrorKind, Read, Result, Write};

pub trait BorshSerialize {
    fn serialize<W: Write>(&self, writer: &mut W) -> Result<()>;
}

impl BorshSerialize for str {
    fn serialize<W: Write>(&self, writer: &mut W) -> Result<()> {
        let size = u32::try_from(self.len()).map_err(|_| ErrorKind::InvalidData)?;
        writer.write_all(&size.to_le_bytes())?;
        writer.write_all(self.as_bytes())
    }
}

pub trait BorshDeserialize: Sized {
    fn deserialize_reader<R: Read>(reader: &mut R) -> Result<Self>;

    /// So many bytes at once: it is called of `u8` alone.
    fn vec_from_reader<R: Read>(len: u32, reader: &mut R) -> Result<Option<Vec<u8>>> {
        let mut bytes = vec![];
        if reader.take(u64::from(len)).read_to_end(&mut bytes)? < len as usize {
            return Err(ErrorKind::InvalidData.into());
        }
        Ok(Some(bytes))
    }
}

macro_rules! numbers {
    ($($number:ty)*) => {
        $(impl BorshDeserialize for $number {
            fn deserialize_reader<R: Read>(reader: &mut R) -> Result<$number> {
                let mut bytes = [0; size_of::<$number>()];
                reader.read_exact(&mut bytes)?;
                Ok(<$number>::from_le_bytes(bytes))
            }
        })*
    };
}
numbers!(u8 u32);
