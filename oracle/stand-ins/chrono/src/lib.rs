//! Stand-in for chrono: types that only the JSON header uses. Nothing here reads a date.

use std::marker::PhantomData;
use std::str::FromStr;

#[derive(Debug)]
pub struct FixedOffset;

#[derive(Debug)]
pub struct DateTime<Z>(PhantomData<Z>);

#[derive(Debug)]
pub struct ParseError;

impl DateTime<FixedOffset> {
    pub fn parse_from_str(_text: &str, _format: &str) -> Result<DateTime<FixedOffset>, ParseError> {
        unimplemented!("dates are not read")
    }
}

impl FromStr for DateTime<FixedOffset> {
    type Err = ParseError;
    fn from_str(_text: &str) -> Result<DateTime<FixedOffset>, ParseError> {
        unimplemented!("dates are not read")
    }
}

impl<Z> Default for DateTime<Z> {
    fn default() -> DateTime<Z> {
        DateTime(PhantomData)
    }
}
