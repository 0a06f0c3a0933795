//! The byte forms of an integer: the plain one, and every other that reads as the same number.

/// Numbers at which the form changes its length or its meaning.
#[rustfmt::skip]
pub const TELLING: [i32; 34] = [
    0, 1, -1, 2, -2, 10, -11, -12, 63, -63, 64, -64, 65, -65, 127, 128, 255,
    8191, -8191, 8192, -8192, 8193, -8193, 1048575, 1048576, -1048576, -1048577,
    134217727, 134217728, -134217728, -134217729, 2147483646, i32::MAX, i32::MIN,
];

/// How many digit bits a form of this many bytes has.
const DIGIT_BITS: [u32; 5] = [6, 13, 20, 27, 32];

/// The shortest form.
pub fn plain(value: i32) -> Vec<u8> {
    let negative = value < 0;
    let length = (1..=5).find(|length| fits(value, negative, *length));
    form(
        value,
        negative,
        length.expect("five bytes hold every number"),
        0,
    )
}

/// Every form: both sign bits, each length, and the bits of a fifth byte that do not count.
pub fn forms(value: i32) -> Vec<Vec<u8>> {
    let mut all = Vec::new();
    for negative in [false, true] {
        for length in (1..=5).filter(|length| fits(value, negative, *length)) {
            let spare: &[u8] = if length == 5 {
                &[0, 0x20, 0x40, 0x60, 0x80, 0xe0]
            } else {
                &[0]
            };
            all.extend(
                spare
                    .iter()
                    .map(|bits| form(value, negative, length, *bits)),
            );
        }
    }
    all
}

fn digits(value: i32, negative: bool) -> u32 {
    (value ^ -i32::from(negative)) as u32
}

fn fits(value: i32, negative: bool, length: usize) -> bool {
    let bits = DIGIT_BITS[length - 1];
    bits == 32 || digits(value, negative) >> bits == 0
}

fn form(value: i32, negative: bool, length: usize, spare: u8) -> Vec<u8> {
    let mut left = digits(value, negative);
    let mut bytes = vec![(left & 63) as u8 | u8::from(negative) << 6];
    left >>= 6;
    for _ in 1..length {
        bytes.push((left & 127) as u8);
        left >>= 7;
    }
    for byte in &mut bytes[..length - 1] {
        *byte |= 0x80;
    }
    bytes[length - 1] |= spare;
    bytes
}
