//! Inverses in F2[x]/(x^r - 1), by Euclid's algorithm on polynomials with 64 coefficients to a word.
//! Only the keys of scripts are made with it: whether a key is one is judged by the plain product.
//! A row of even weight has no inverse at any r, since x - 1 divides it and x^r - 1 alike. Where r is a power of two every row of odd weight has one;
//! at other r some of odd weight have none either, as {0, 1, 2} at r 6.

use std::mem;

/// Coefficient i is bit i mod 64 of word i / 64.
struct Polynomial {
    words: Vec<u64>,
}

impl Polynomial {
    /// The sum of these powers of x, with room for degrees up to `degree`.
    fn with_terms(degree: usize, exponents: &[usize]) -> Polynomial {
        let mut words = vec![0; degree / 64 + 1];
        for &i in exponents {
            words[i / 64] ^= 1 << (i % 64);
        }
        Polynomial { words }
    }

    /// Nothing where all coefficients are 0.
    fn degree(&self) -> Option<usize> {
        let top = self.words.iter().rposition(|&word| word != 0)?;
        Some(64 * top + 63 - self.words[top].leading_zeros() as usize)
    }

    /// Adds x^by times another polynomial. What would go past the room is 0.
    fn add_shifted(&mut self, other: &Polynomial, by: usize) {
        let (words, bits) = (by / 64, by % 64);
        let mut carry = 0;
        for (word, &more) in self.words[words..].iter_mut().zip(&other.words) {
            *word ^= more << bits | carry;
            carry = if bits == 0 { 0 } else { more >> (64 - bits) };
        }
    }
}

/// The words of the row f with h · f = 1, where h has these bits and there is such a row.
pub fn inverse(r: usize, bits: &[usize]) -> Option<Vec<u32>> {
    // h · times is remainder mod x^r - 1, in both pairs
    let (mut remainder, mut times) = (Polynomial::with_terms(r, &[0, r]), Polynomial::with_terms(r, &[]));
    let (mut next, mut next_times) = (Polynomial::with_terms(r, bits), Polynomial::with_terms(r, &[0]));
    while let Some(low) = next.degree() {
        while let Some(by) = remainder.degree().and_then(|high| high.checked_sub(low)) {
            remainder.add_shifted(&next, by);
            times.add_shifted(&next_times, by);
        }
        mem::swap(&mut remainder, &mut next);
        mem::swap(&mut times, &mut next_times);
    }
    if remainder.degree() != Some(0) {
        return None;
    }
    let halves = times.words.iter().flat_map(|&word| [word as u32, (word >> 32) as u32]);
    Some(halves.take(r.div_ceil(32)).collect())
}
