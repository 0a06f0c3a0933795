/// Only the JSON header holds one.
#[derive(Debug)]
pub struct Sha256(pub [u8; 32]);
