//! Costs from the timings of probes: document 02, W-203. A float comes as its 32 bits and is written out in binary digits, so that the
//! difference and its rounding are worked out by hand; nothing is computed in floats.

use std::array::from_fn;

/// What Import is lent, as the header has it: a transition, the kind of the reading, and the bits of two floats.
#[derive(Clone, Copy, Debug)]
pub struct Import {
    pub node: u32,
    pub command: u32,
    pub target: u32,
    pub kind: u32,
    pub seconds: u32,
    pub dead_time: u32,
}

/// A reading, with the bits of its seconds.
#[derive(Clone, Copy, Debug, PartialEq, Eq)]
pub enum Reading {
    Taken(u32),
    Waited(u32),
}

impl Import {
    /// The reading; `None` where its kind is unknown.
    pub fn reading(&self) -> Option<Reading> {
        match self.kind {
            0 => Some(Reading::Taken(self.seconds)),
            1 => Some(Reading::Waited(self.seconds)),
            _ => None,
        }
    }
}

/// The digits after the point. The smallest float above zero is 2^-149, and every finite float is a whole number of times that one.
const AFTER_POINT: usize = 149;
/// All digits. Finite floats are below 2^128, and so are the differences of those that are not below zero, also when they are rounded,
/// since none lies above the largest float. So 149 digits after the point and 128 before it hold every number here, with nothing cut off.
const DIGITS: usize = AFTER_POINT + 128;
/// The digits that a float has room for.
const KEPT: usize = 24;
/// The largest cost of a transition.
const LARGEST: u128 = 65535;

/// A number at or above zero in binary, each digit 0 or 1, the lowest first: digit i counts for 2^(i - 149).
#[derive(Clone, Copy, Debug, PartialEq, Eq)]
struct Binary([i8; DIGITS]);

impl Binary {
    /// The number of a float; `None` where it is infinite, no number or below zero. Minus zero is zero.
    fn of(bits: u32) -> Option<Binary> {
        let (minus, exponent, fraction) = (bits >> 31 == 1, bits >> 23 & 255, bits & 0x7f_ffff);
        let zero = exponent == 0 && fraction == 0;
        if exponent == 255 || minus && !zero {
            return None;
        }
        // A float is its 24 digits × 2^(place - 149). The first digit is 1, but for zero and the subnormal ones.
        let (digits, place) = if exponent == 0 { (fraction, 0) } else { (1 << 23 | fraction, exponent as usize - 1) };
        let digit = |i: usize| if (place..place + KEPT).contains(&i) { (digits >> (i - place) & 1) as i8 } else { 0 };
        Some(Binary(from_fn(digit)))
    }

    /// The difference, digit by digit with a borrow; `None` where it is below zero.
    fn minus(&self, other: &Binary) -> Option<Binary> {
        let mut borrow = 0;
        let digits = from_fn(|i| {
            let digit = self.0[i] - other.0[i] - borrow;
            borrow = (digit < 0) as i8;
            digit + 2 * borrow
        });
        (borrow == 0).then_some(Binary(digits))
    }

    /// The nearest number that a float has room for, halfway the even one: 24 digits are kept, from the highest 1 down, and those below
    /// them are cut off. Where the highest 1 is one of the lowest 24 digits, all are kept: these are the smallest normal floats and the
    /// subnormal ones.
    fn rounded(mut self) -> Binary {
        let length = self.0.iter().rposition(|&digit| digit == 1).map_or(0, |highest| highest + 1);
        if length <= KEPT {
            return self;
        }
        let (cut, kept) = self.0.split_at_mut(length - KEPT);
        let (first, later) = (cut[cut.len() - 1] == 1, cut[..cut.len() - 1].contains(&1));
        let odd = kept[0] == 1;
        cut.fill(0);
        if first && (later || odd) {
            increase(kept);
        }
        self
    }

    /// The least whole number that is not below this one, which is a float: those from 2^24 on are whole, so it is below 2^128 too.
    fn up_to_whole(&self) -> u128 {
        let (after, before) = self.0.split_at(AFTER_POINT);
        let whole = before.iter().rev().fold(0, |number, &digit| 2 * number + digit as u128);
        whole + after.contains(&1) as u128
    }
}

/// Adds 1 at the lowest of some digits: the ones at the low end become 0, and the 0 above them becomes 1.
fn increase(digits: &mut [i8]) {
    let zero = digits.iter().position(|&digit| digit == 0).expect("a digit that is 0");
    digits[..zero].fill(0);
    digits[zero] = 1;
}

/// The cost of a transition that took some seconds, by a probe with this dead time; `None` where one of the two is not finite or is below
/// zero, or the rounded difference is below zero or above 65,535. A difference below zero stays so when it is rounded: it is at least
/// 2^-149 away from zero, which is a float.
pub fn cost(seconds: u32, dead_time: u32) -> Option<usize> {
    let difference = Binary::of(seconds)?.minus(&Binary::of(dead_time)?)?;
    let cost = difference.rounded().up_to_whole();
    (cost <= LARGEST).then_some(cost as usize)
}
