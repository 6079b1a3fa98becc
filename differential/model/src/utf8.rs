//! Well-formed UTF-8, from RFC 3629, section 3: a character's bytes spell a number in the range that a form of its length has.

/// Whether the bytes are whole characters.
pub fn well_formed(bytes: &[u8]) -> bool {
    let mut rest = bytes;
    while let Some((first, after)) = rest.split_first() {
        // The least number of the form, and the bits of it in the first byte.
        let (least, bits) = match first.leading_ones() {
            0 => (0, first & 0x7f),
            2 => (0x80, first & 0x1f),
            3 => (0x800, first & 0x0f),
            4 => (0x1_0000, first & 0x07),
            _ => return false,
        };
        let more = first.leading_ones().saturating_sub(1) as usize;
        if after.len() < more || after[..more].iter().any(|byte| byte >> 6 != 0b10) {
            return false;
        }
        let number = after[..more].iter().fold(u32::from(bits), |number, byte| number << 6 | u32::from(byte & 0x3f));
        if number < least || number > 0x10_ffff || (0xd800..=0xdfff).contains(&number) {
            return false;
        }
        rest = &after[more..];
    }
    true
}
