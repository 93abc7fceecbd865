//! A stand-in for binrw: numbers and byte arrays, read little-endian and one after the other.
pub use standin_derive::BinRead;

pub mod io {
    pub use std::io::*;
}

pub mod error {
    #[derive(Debug)]
    pub enum Error {
        Io(super::io::Error),
        /// Never built: the published code has a branch for it.
        Other,
    }

    impl From<super::io::Error> for Error {
        fn from(error: super::io::Error) -> Self {
            Self::Io(error)
        }
    }
}

pub type BinResult<T> = Result<T, error::Error>;

pub trait BinRead: Sized {
    fn read<R: io::Read + io::Seek>(reader: &mut R) -> BinResult<Self>;
}

impl<const N: usize> BinRead for [u8; N] {
    fn read<R: io::Read + io::Seek>(reader: &mut R) -> BinResult<Self> {
        let mut bytes = [0; N];
        reader.read_exact(&mut bytes)?;
        Ok(bytes)
    }
}

macro_rules! numbers {
    ($($t:ty)*) => { $(
        impl BinRead for $t {
            fn read<R: io::Read + io::Seek>(reader: &mut R) -> BinResult<Self> {
                Ok(<$t>::from_le_bytes(BinRead::read(reader)?))
            }
        }
    )* };
}
numbers!(u8 u16 u32 u64 i8 i64);
