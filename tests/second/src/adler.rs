//! The checksum Adler-32, as RFC 1950 has it.

const MODULUS: u32 = 65_521;

pub fn adler32(octets: &[u8]) -> u32 {
    let (mut sum, mut sum_of_sums) = (1, 0);
    for octet in octets {
        sum = (sum + u32::from(*octet)) % MODULUS;
        sum_of_sums = (sum_of_sums + sum) % MODULUS;
    }
    (sum_of_sums << 16) | sum
}

#[cfg(test)]
mod tests {
    use super::*;

    #[test]
    fn known_sums() {
        assert_eq!(adler32(b""), 1);
        assert_eq!(adler32(b"Wikipedia"), 0x11E6_0398);
        assert_eq!(adler32(&[0x11, 0x22, 0x33]), 11_337_831);
    }

    #[test]
    fn sums_that_pass_the_modulus() {
        // 65,521 is 257 times 255 less 14, so these come to 1 + 14 = 15.
        assert_eq!(adler32(&[255; 257]) & 0xFFFF, 15);
    }
}
