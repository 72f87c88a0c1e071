//! The exact sum of floats as a decimal number, to its last digit, and back.

use num_bigint::{BigInt, Sign};

/// A sum is a whole number of units of 2^-UNIT.
const UNIT: u32 = 1074;

/// The decimal number that a sum is: `exact_pnl` of [`yshturpa::Totals`], whole.
pub fn decimal(words: &[u64]) -> String {
    let bytes: Vec<u8> = words.iter().flat_map(|word| word.to_le_bytes()).collect();
    let sum = BigInt::from_signed_bytes_le(&bytes);
    // n / 2^k is n · 5^k / 10^k, and twos that n has itself make k less.
    let twos = sum.trailing_zeros().unwrap_or(u64::from(UNIT)).min(u64::from(UNIT)) as u32;
    let places = UNIT - twos;
    let digits = ((sum.magnitude() >> twos) * num_bigint::BigUint::from(5u8).pow(places)).to_string();
    let digits = format!("{digits:0>width$}", width = places as usize + 1);
    let (whole, part) = digits.split_at(digits.len() - places as usize);
    let sign = if sum.sign() == Sign::Minus { "-" } else { "" };
    let dot = if part.is_empty() { "" } else { "." };
    format!("{sign}{whole}{dot}{part}")
}

/// The words of a decimal number; none where it is no sum of floats, is not written as `decimal` writes it, or has no room in so many.
pub fn words(text: &str, count: usize) -> Option<Vec<u64>> {
    let (whole, part) = text.split_once('.').unwrap_or((text, ""));
    if part.len() > UNIT as usize || whole.len() > 700 {
        return None;
    }
    let scaled: BigInt = format!("{whole}{part}").parse().ok()?;
    let fives = BigInt::from(5u8).pow(part.len() as u32);
    // Past the point stand as many twos as fives in the tens.
    let sum = scaled << (UNIT as usize - part.len());
    if &sum % &fives != BigInt::default() {
        return None;
    }
    let bytes = (sum / fives).to_signed_bytes_le();
    let sign = if bytes.last().is_some_and(|byte| byte & 0x80 != 0) { 0xff } else { 0 };
    if bytes.len() > 8 * count {
        return None;
    }
    let byte = |at: usize| bytes.get(at).copied().unwrap_or(sign);
    let word = |at: usize| u64::from_le_bytes(std::array::from_fn(|k| byte(8 * at + k)));
    let words: Vec<u64> = (0..count).map(word).collect();
    (decimal(&words) == text).then_some(words)
}

#[cfg(test)]
mod tests {
    use super::*;

    /// A float in units of 2^-1074, in 34 words.
    fn of(x: f64) -> Vec<u64> {
        let (bits, negative) = (x.abs().to_bits(), x < 0.0);
        let (exponent, part) = ((bits >> 52) as u32, bits & ((1 << 52) - 1));
        let sum = match exponent {
            0 => BigInt::from(part),
            _ => BigInt::from(part | 1 << 52) << (exponent - 1),
        };
        let bytes = if negative { -sum } else { sum }.to_signed_bytes_le();
        let sign = if negative { 0xff } else { 0 };
        let byte = |at: usize| bytes.get(at).copied().unwrap_or(sign);
        (0..34).map(|at| u64::from_le_bytes(std::array::from_fn(|k| byte(8 * at + k)))).collect()
    }

    #[test]
    fn every_digit_is_there_and_reads_back() {
        for (x, text) in [
            (0.0, "0"),
            (1.0, "1"),
            (-2.5, "-2.5"),
            (1e22, "10000000000000000000000"),
            (0.1, "0.1000000000000000055511151231257827021181583404541015625"),
            (-0.3, "-0.299999999999999988897769753748434595763683319091796875"),
        ] {
            assert_eq!(decimal(&of(x)), text);
        }
        for x in [5e-324, -5e-324, f64::MAX, f64::MIN, f64::MIN_POSITIVE, 1e-300, -1e300, 1.0 / 3.0] {
            let text = decimal(&of(x));
            assert_eq!((text.parse::<f64>().unwrap(), words(&text, 34)), (x, Some(of(x))));
        }
        assert_eq!(decimal(&of(5e-324)).len(), 2 + 1074);
    }

    #[test]
    fn what_is_no_sum_of_floats_is_none() {
        for bad in ["", "-", "x", "1.", "0.1", "01", "1.50", "+1", "-0", "1e3", " 1", "1_0", &"9".repeat(800)] {
            assert_eq!(words(bad, 34), None, "{bad}");
        }
    }
}
