//! Check sums: FNV-1a of 64 bits, which goes on where it ended.
//!
//! One changed byte is found for certain: each step is one-to-one in what came before it, and in
//! its byte. Other damage slips through once in 2^64.

/// The sum of no bytes.
pub const NOTHING: u64 = 0xcbf2_9ce4_8422_2325;

/// The sum of what has this sum already, with more bytes behind it.
pub fn more(sum: u64, bytes: &[u8]) -> u64 {
    bytes.iter().fold(sum, |sum, &byte| (sum ^ u64::from(byte)).wrapping_mul(0x0100_0000_01b3))
}

/// A sum in sixteen digits.
pub fn spelled(sum: u64) -> String {
    format!("{sum:016x}")
}

#[cfg(test)]
mod tests {
    use super::*;

    #[test]
    fn sums_are_those_of_the_paper() {
        assert_eq!(more(NOTHING, b""), 0xcbf2_9ce4_8422_2325);
        assert_eq!(more(NOTHING, b"a"), 0xaf63_dc4c_8601_ec8c);
        assert_eq!(more(NOTHING, b"foobar"), 0x8594_4171_f739_67e8);
        assert_eq!(more(more(NOTHING, b"foo"), b"bar"), more(NOTHING, b"foobar"));
        assert_eq!(spelled(10), "000000000000000a");
    }
}
