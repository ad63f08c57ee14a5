//! The Reed-Solomon code of clause 8.6: symbols of the field of 256 elements, five or fourteen check bytes behind a row's information.

/// Bytes of a codeword.
pub const CODEWORD: usize = 240;
/// P(x) = x^8 + x^7 + x^2 + x + 1, a bit for each power.
const P: u16 = 1 << 8 | 1 << 7 | 1 << 2 | 1 << 1 | 1;
/// The power of alpha that is the generator's first root.
const FIRST_ROOT: usize = 120;
/// Elements other than 0, all of them powers of alpha.
const ORDER: usize = 255;

/// alpha^i, for sums of two exponents too.
const POWERS: [u8; 2 * ORDER] = powers();
/// The exponent of each element but 0.
const EXPONENTS: [u8; 256] = exponents();

const fn powers() -> [u8; 2 * ORDER] {
    let mut powers = [1; 2 * ORDER];
    let mut i = 1;
    while i < 2 * ORDER {
        let shifted = (powers[i - 1] as u16) << 1;
        powers[i] = if shifted > 0xFF { shifted ^ P } else { shifted } as u8;
        i += 1;
    }
    powers
}

const fn exponents() -> [u8; 256] {
    let mut exponents = [0; 256];
    let mut i = 0;
    while i < ORDER {
        exponents[POWERS[i] as usize] = i as u8;
        i += 1;
    }
    exponents
}

pub fn product(a: u8, b: u8) -> u8 {
    if a == 0 || b == 0 {
        return 0;
    }
    POWERS[usize::from(EXPONENTS[usize::from(a)]) + usize::from(EXPONENTS[usize::from(b)])]
}

/// alpha^120 to alpha^(119 + R).
pub fn roots(check: usize) -> impl Iterator<Item = u8> {
    (FIRST_ROOT..FIRST_ROOT + check).map(|i| POWERS[i])
}

/// G(x), the highest power first; its coefficient, 1, included.
pub fn generator(check: usize) -> Vec<u8> {
    with_roots(roots(check))
}

/// The product of x less each root.
pub fn with_roots(roots: impl Iterator<Item = u8>) -> Vec<u8> {
    let mut g = vec![1];
    for root in roots {
        // (x - root) g: x g, and root g one place behind.
        g.push(0);
        for place in (1..g.len()).rev() {
            g[place] ^= product(root, g[place - 1]);
        }
    }
    g
}

/// A row's information bytes and its check bytes: 235 and 5, or 226 and 14.
fn fits(information: usize, check: usize) -> Result<(), u8> {
    if [(235, 5), (226, 14)].contains(&(information, check)) {
        Ok(())
    } else {
        Err(1)
    }
}

/// What is left of the information, as the high powers of a codeword, divided by G(x).
pub fn check_bytes(information: &[u8], check: usize) -> Result<Vec<u8>, u8> {
    fits(information.len(), check)?;
    let g = generator(check);
    let mut rest = information.to_vec();
    rest.resize(CODEWORD, 0);
    for place in 0..information.len() {
        let quotient = rest[place];
        for (left, &coefficient) in rest[place..].iter_mut().zip(&g) {
            *left ^= product(quotient, coefficient);
        }
    }
    Ok(rest.split_off(information.len()))
}

/// A row is clean if every root of G(x) is one of it.
pub fn is_clean(row: &[u8], check: usize) -> Result<bool, u8> {
    fits(row.len().saturating_sub(check), check)?;
    let value = |root| {
        row.iter()
            .fold(0, |value, &byte| product(value, root) ^ byte)
    };
    Ok(roots(check).all(|root| value(root) == 0))
}
