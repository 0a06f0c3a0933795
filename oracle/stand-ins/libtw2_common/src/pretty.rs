//! Wrappers that only `Debug` uses.

#[derive(Debug)]
pub struct Bytes<'a>(#[allow(dead_code)] &'a [u8]);

impl<'a> Bytes<'a> {
    pub fn new(bytes: &'a [u8]) -> Bytes<'a> {
        Bytes(bytes)
    }
}

#[derive(Debug)]
pub struct AlmostString<'a>(#[allow(dead_code)] &'a [u8]);

impl<'a> AlmostString<'a> {
    pub fn new(bytes: &'a [u8]) -> AlmostString<'a> {
        AlmostString(bytes)
    }
}

#[derive(Debug)]
pub struct AlmostStringSlice<'a>(#[allow(dead_code)] &'a [&'a [u8]]);

impl<'a> AlmostStringSlice<'a> {
    pub fn new(strings: &'a [&'a [u8]]) -> AlmostStringSlice<'a> {
        AlmostStringSlice(strings)
    }
}
