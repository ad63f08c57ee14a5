//! Sums to time beside the proved ones: the one before the ring, and those with tables. Each is checked against the independent one.

use independent::abi;
use independent::sum::sum;

pub type Sum = fn(&[u8]) -> u16;

/// Each with its name, the proved ones first.
pub fn all() -> Vec<(&'static str, Sum)> {
    let mut sums: Vec<(&'static str, Sum)> = vec![
        ("fast", abi::sum),
        ("small", abi::boot_sum),
        ("before", before),
        ("table of 256", sum),
        ("eight tables", eight_tables),
    ];
    if cfg!(feature = "crc") {
        sums.push(("crate crc", crate_crc));
    }
    sums
}

/// What the proved sum was before the ring, eight bytes to a turn: the yardstick.
#[inline(never)]
fn before(bytes: &[u8]) -> u16 {
    let mut eights = bytes.chunks_exact(8);
    let mut crc = 0xFFFF_u16;
    for eight in &mut eights {
        let word = u64::from_be_bytes(eight.try_into().expect("eight bytes"));
        let z = u64::from(crc) << 48 ^ word;
        let t = z ^ z >> 4 ^ (z >> 11 ^ z >> 16);
        let u = t ^ t >> 8 ^ (t >> 22 ^ t >> 32);
        let v = u ^ u >> 16 ^ u >> 44;
        let q = v ^ v >> 32;
        crc = (q ^ q << 5 ^ q << 12) as u16;
    }
    for &byte in eights.remainder() {
        let x = crc >> 8 ^ u16::from(byte);
        let y = x ^ x >> 4;
        crc = crc << 8 ^ (y << 12 ^ y << 5 ^ y);
    }
    !crc
}

const TABLES: [[u16; 256]; 8] = tables();

const fn tables() -> [[u16; 256]; 8] {
    let mut tables = [[0; 256]; 8];
    let mut n = 0;
    while n < 256 {
        let mut crc = (n as u16) << 8;
        let mut bit = 0;
        while bit < 8 {
            crc = if crc & 0x8000 == 0 {
                crc << 1
            } else {
                crc << 1 ^ 0x1021
            };
            bit += 1;
        }
        tables[0][n] = crc;
        n += 1;
    }
    let mut k = 1;
    while k < 8 {
        let mut n = 0;
        while n < 256 {
            let crc = tables[k - 1][n];
            tables[k][n] = crc << 8 ^ tables[0][(crc >> 8) as usize];
            n += 1;
        }
        k += 1;
    }
    tables
}

/// Eight bytes to a turn, each by a table of its own ("slicing by eight").
#[inline(never)]
fn eight_tables(bytes: &[u8]) -> u16 {
    let at = |table: usize, n: u8| TABLES[table][usize::from(n)];
    let mut eights = bytes.chunks_exact(8);
    let mut crc = 0xFFFF_u16;
    for b in &mut eights {
        let [high, low] = crc.to_be_bytes();
        crc = at(7, b[0] ^ high)
            ^ at(6, b[1] ^ low)
            ^ at(5, b[2])
            ^ at(4, b[3])
            ^ at(3, b[4])
            ^ at(2, b[5])
            ^ at(1, b[6])
            ^ at(0, b[7]);
    }
    for &byte in eights.remainder() {
        crc = crc << 8 ^ at(0, (crc >> 8) as u8 ^ byte);
    }
    !crc
}

/// The crate `crc` 1.8 has this polynomial with the bits the other way round alone, so its sums are others; what it costs is what is timed.
#[cfg(feature = "crc")]
fn crate_crc(bytes: &[u8]) -> u16 {
    crc::crc16::checksum_x25(bytes)
}

#[cfg(not(feature = "crc"))]
fn crate_crc(_: &[u8]) -> u16 {
    0
}
