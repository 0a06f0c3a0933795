use crate::integer;
use crate::random::Random;

/// An input under construction.
pub struct Body {
    bytes: Vec<u8>,
    /// One integer in this many is written in another form than the plain one; 0 for none.
    odd: usize,
    forms: Random,
}

impl Body {
    /// An input with its version byte. All integers are plain.
    pub fn new(version: u8) -> Body {
        Body {
            bytes: vec![version],
            odd: 0,
            forms: Random::new(&[]),
        }
    }
    /// Only bytes, without a version.
    pub fn bare() -> Body {
        Body {
            bytes: Vec::new(),
            odd: 0,
            forms: Random::new(&[]),
        }
    }
    pub fn with_odd_forms(mut self, odd: usize, random: &mut Random) -> Body {
        self.odd = odd;
        self.forms = Random::new(&[random.next()]);
        self
    }
    pub fn len(&self) -> usize {
        self.bytes.len()
    }
    pub fn done(self) -> Vec<u8> {
        self.bytes
    }
    pub fn raw(mut self, bytes: &[u8]) -> Body {
        self.add(bytes);
        self
    }
    pub fn add(&mut self, bytes: &[u8]) {
        self.bytes.extend_from_slice(bytes);
    }
    pub fn int(mut self, value: i32) -> Body {
        self.add_int(value);
        self
    }
    pub fn add_int(&mut self, value: i32) {
        if self.odd != 0 && self.forms.one_in(self.odd) {
            let forms = integer::forms(value);
            let chosen = self.forms.below(forms.len());
            self.add(&forms[chosen]);
        } else {
            self.add(&integer::plain(value));
        }
    }
    pub fn ints(mut self, values: &[i32]) -> Body {
        for value in values {
            self.add_int(*value);
        }
        self
    }
    /// The bytes, then 00.
    pub fn string(self, bytes: &[u8]) -> Body {
        self.raw(bytes).raw(&[0])
    }
    /// The length, then the bytes.
    pub fn data(self, bytes: &[u8]) -> Body {
        self.int(bytes.len() as i32).raw(bytes)
    }
}
