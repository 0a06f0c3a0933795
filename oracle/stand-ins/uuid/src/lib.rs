//! Stand-in for uuid: 16 bytes.

use std::str::FromStr;

#[derive(Clone, Copy, Debug)]
pub struct Uuid([u8; 16]);

#[derive(Debug)]
pub struct Error;

impl Uuid {
    pub fn nil() -> Uuid {
        Uuid([0; 16])
    }
    pub fn from_slice(bytes: &[u8]) -> Result<Uuid, Error> {
        bytes.try_into().map(Uuid).map_err(|_| Error)
    }
    pub fn as_bytes(&self) -> &[u8; 16] {
        &self.0
    }
}

impl FromStr for Uuid {
    type Err = Error;
    fn from_str(_text: &str) -> Result<Uuid, Error> {
        unimplemented!("identifiers are not read from text")
    }
}
