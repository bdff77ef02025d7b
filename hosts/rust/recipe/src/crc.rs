//! The checksum of saved states: CRC-64 with the polynomial of XZ.

/// ECMA-182's polynomial, its bits in reverse.
const POLYNOMIAL: u64 = 0xc96c_5795_d787_0f42;

/// The remainder of each byte.
const REMAINDERS: [u64; 256] = remainders();

const fn remainders() -> [u64; 256] {
    let mut remainders = [0; 256];
    let mut byte = 0;
    while byte < 256 {
        remainders[byte] = remainder(byte as u64);
        byte += 1;
    }
    remainders
}

const fn remainder(mut crc: u64) -> u64 {
    let mut bits = 0;
    while bits < 8 {
        crc = (crc >> 1) ^ (POLYNOMIAL & (crc & 1).wrapping_neg());
        bits += 1;
    }
    crc
}

/// The checksum of parts as if they were one.
pub fn crc64(parts: &[&[u8]]) -> u64 {
    let with = |crc: u64, byte: &u8| (crc >> 8) ^ REMAINDERS[usize::from(crc as u8 ^ byte)];
    !parts.iter().copied().flatten().fold(!0, with)
}

#[cfg(test)]
mod tests {
    use super::*;

    #[test]
    fn the_published_check_value() {
        assert_eq!(crc64(&[b"123456789"]), 0x995d_c9bb_df19_39fa);
        assert_eq!(crc64(&[b"1234", b"", b"56789"]), 0x995d_c9bb_df19_39fa);
        assert_eq!(crc64(&[]), 0);
    }
}
