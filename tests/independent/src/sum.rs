//! The sum of annex D: x^16 + x^12 + x^5 + 1, register all ones, high bit first, result inverted.

const TABLE: [u16; 256] = table();

const fn table() -> [u16; 256] {
    let mut table = [0; 256];
    let mut byte = 0;
    while byte < 256 {
        table[byte] = eight_shifts((byte as u16) << 8);
        byte += 1;
    }
    table
}

const fn eight_shifts(mut register: u16) -> u16 {
    let mut shifts = 0;
    while shifts < 8 {
        let carry = register & 0x8000 != 0;
        register <<= 1;
        if carry {
            register ^= 0x1021;
        }
        shifts += 1;
    }
    register
}

pub fn sum(bytes: &[u8]) -> u16 {
    !bytes.iter().fold(0xFFFF, |register: u16, &byte| {
        let high = (register >> 8) as u8;
        register << 8 ^ TABLE[usize::from(high ^ byte)]
    })
}

#[cfg(test)]
mod tests {
    use super::*;
    use crate::generate::{Random, Sort};

    fn bitwise(bytes: &[u8]) -> u16 {
        let mut register = 0xFFFF_u16;
        for bit in bytes
            .iter()
            .flat_map(|byte| (0..8).rev().map(move |b| u16::from(byte >> b & 1)))
        {
            let carry = register >> 15 ^ bit;
            register = (register << 1) ^ (carry * 0x1021);
        }
        !register
    }

    #[test]
    fn figures_of_the_paper() {
        assert_eq!(sum(&[]), 0x0000);
        assert_eq!(sum(&[0xFF]), 0x00FF);
        assert_eq!(sum(&[0xFF, 0xFF]), 0xFFFF);
        assert_eq!(sum(&[0x00]), 0x1E0F);
    }

    #[test]
    fn published_check_value() {
        assert_eq!(sum(b"123456789"), 0xD64E);
    }

    #[test]
    fn table_agrees_with_bits() {
        let mut random = Random::new(1, Sort::Frame, 0);
        for length in 0..300 {
            let bytes = random.bytes(length);
            assert_eq!(sum(&bytes), bitwise(&bytes));
        }
    }
}
