//! Stand-in for serde_json: only the JSON header would call it.

#[derive(Debug)]
pub struct Error;

impl Error {
    pub fn is_data(&self) -> bool {
        unimplemented!("JSON is not read")
    }
}

pub fn from_slice<T>(_json: &[u8]) -> Result<T, Error> {
    unimplemented!("JSON is not read")
}
