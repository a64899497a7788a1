//! The traits of embedded-io 0.6 that the example uses, with their signatures.
#![no_std]

pub enum ErrorKind {
    Other,
}

pub trait Error: core::fmt::Debug {
    fn kind(&self) -> ErrorKind;
}

impl Error for core::convert::Infallible {
    fn kind(&self) -> ErrorKind {
        match *self {}
    }
}

pub trait ErrorType {
    type Error: Error;
}

pub trait Read: ErrorType {
    fn read(&mut self, buf: &mut [u8]) -> Result<usize, Self::Error>;
}

pub trait Write: ErrorType {
    fn write(&mut self, buf: &[u8]) -> Result<usize, Self::Error>;
    fn flush(&mut self) -> Result<(), Self::Error>;

    fn write_all(&mut self, mut buf: &[u8]) -> Result<(), Self::Error> {
        while !buf.is_empty() {
            let len = self.write(buf)?;
            assert!(len > 0, "write() returned Ok(0)");
            buf = &buf[len..];
        }
        Ok(())
    }
}
