//! The elementary functions, in two modes.
//!
//! [`Document`] is document 01, "Numbers the model rests on", bit for bit, with
//! the cube root of document 02, wish 6.
//! [`Libm`] is the system's mathematical library and the processor's square
//! root: what an ordinary port of 002 uses. Only the first is the law; the
//! second is here to be timed, and to show how far apart the two lie.
//!
//! [`DocumentProcessor`] is the first with the processor's square root, which
//! is the same function (tested below): document 01 as fast as it can be had.

use std::marker::PhantomData;

/// Pi is the nearest f64.
pub const PI: f64 = std::f64::consts::PI;
/// Two pi is its double.
pub const TWOPI: f64 = 2.0 * PI;
pub const HALF_PI: f64 = PI / 2.0;

/// What 002 calls from `math.h`, apart from `fmod` and `fabs`, which are exact.
pub trait Elementary {
    /// How a table names the mode.
    const NAME: &'static str;
    fn sqrt(x: f64) -> f64;
    fn sin_cos(x: f64) -> (f64, f64);
    fn sin(x: f64) -> f64;
    fn cos(x: f64) -> f64;
    fn atan2(y: f64, x: f64) -> f64;
    /// `pow(x, 2.0 / 3.0)`.
    fn pow_two_thirds(x: f64) -> f64;
    /// `pow(x, 1.5)`.
    fn pow_three_halves(x: f64) -> f64;
    /// `pow(x, 3.5)`.
    fn pow_seven_halves(x: f64) -> f64;
}

/// C's `fmod`: exact, with the sign of the dividend.
pub fn fmod(x: f64, y: f64) -> f64 {
    x % y
}

// ------------------------------------------------------------ document 01

/// Document 01's definitions, over a square root R.
#[derive(Clone, Copy, Debug)]
pub struct Definitions<R>(PhantomData<R>);

/// Document 01, its square root by whole numbers.
pub type Document = Definitions<ByWholeNumbers>;
/// Document 01, its square root by the processor.
pub type DocumentProcessor = Definitions<ByProcessor>;

/// A square root.
pub trait Root {
    const NAME: &'static str;
    fn sqrt(x: f64) -> f64;
}

#[derive(Clone, Copy, Debug)]
pub struct ByWholeNumbers;
#[derive(Clone, Copy, Debug)]
pub struct ByProcessor;

impl Root for ByWholeNumbers {
    const NAME: &'static str = "document 01";

    fn sqrt(x: f64) -> f64 {
        square_root(x)
    }
}

impl Root for ByProcessor {
    const NAME: &'static str = "document 01, processor's root";

    fn sqrt(x: f64) -> f64 {
        x.sqrt()
    }
}

/// The nearest f64 to the square root, ties to even, by whole numbers.
///
/// A positive finite x is `s * 2^e` with e even and `s` whole. With s moved up
/// to at least 2^106, the whole root q of s has 54 or more bits, so its last
/// bit and "something is left over" decide the rounding.
pub fn square_root(x: f64) -> f64 {
    if x.is_nan() || (x < 0.0) {
        return f64::NAN;
    }
    if x == 0.0 || x == f64::INFINITY {
        return x;
    }
    let bits = x.to_bits();
    let field = (bits >> 52) as i32;
    let fraction = bits & ((1 << 52) - 1);
    let (mut significand, mut exponent) =
        if field == 0 { (fraction as u128, -1074) } else { ((fraction | (1 << 52)) as u128, field - 1075) };
    // To 107 or 108 bits, with an even exponent.
    let mut up = 107 - (128 - significand.leading_zeros() as i32);
    if (exponent - up) % 2 != 0 {
        up += 1;
    }
    significand <<= up;
    exponent -= up;
    let root = whole_root(significand);
    let left_over = root * root != significand;
    // The root has exactly 54 bits: round off one.
    let kept = root >> 1;
    let half = root & 1 == 1;
    let rounded = if half && (left_over || kept & 1 == 1) { kept + 1 } else { kept };
    // At most 2^53, so both factors are exact; the root of an f64 is never subnormal.
    (rounded as f64) * power_of_two(exponent / 2 + 1)
}

/// The whole part of the square root, bit by bit.
fn whole_root(n: u128) -> u128 {
    let mut root: u128 = 0;
    let mut bit: u128 = 1 << 54;
    while bit != 0 {
        let candidate = root | bit;
        if candidate * candidate <= n {
            root = candidate;
        }
        bit >>= 1;
    }
    root
}

/// 2 to the k, for k from -1022 to 1023.
fn power_of_two(k: i32) -> f64 {
    f64::from_bits(((k + 1023) as u64) << 52)
}

/// The nearest f64 to the cube root of a positive normal number; NaN for any other.
pub fn cube_root(x: f64) -> f64 {
    if !(x.is_normal() && x > 0.0) {
        return f64::NAN;
    }
    nearest_cube_root(x, x.cbrt())
}

/// The nearest f64 to the cube root of a positive normal x, from a guess that
/// is less than 2^12 f64s away from it. The system's is, whatever its bits.
///
/// x is `a * 8^k / 2^1075` for a whole a of 53 to 55 bits. With n for `a * 2^104`
/// its root is that of n times `2^k / 2^393`, and has 53 bits before the point.
/// So the nearest f64 is y times that, for the whole y with
/// `(2y - 1)^3 < 8n < (2y + 1)^3`. `8n` is even and the cubes are odd: no tie.
///
/// These numbers have up to 162 bits. But where z is within 2^14 of the cube root
/// of 8n, both are below 2^54 + 2^14, and `z^3` is within `3 * 2^14 * 2^109` of
/// `8n`. That is below 2^127: so their difference modulo 2^128, read as a signed
/// number, is the difference.
fn nearest_cube_root(x: f64, guess: f64) -> f64 {
    let field = x.to_bits() >> 52;
    let digits = x.to_bits() & ((1 << 52) - 1) | 1 << 52;
    let eight_n = u128::from(digits << (field % 3)) << 107;
    let is_below = |z: u64| {
        let z = u128::from(z);
        eight_n.wrapping_sub((z * z).wrapping_mul(z)) as i128 > 0
    };
    // The pattern of y times 2^k / 2^393 is `base + y`, for y = 2^53 too. A guess
    // below 2^52 is less than 2^12 of shorter steps below it.
    let base = (field / 3 + 681) << 52;
    let mut y = guess.to_bits() - base;
    while is_below(2 * y + 1) {
        y += 1;
    }
    while !is_below(2 * y - 1) {
        y -= 1;
    }
    f64::from_bits(base + y)
}

const fn factorial(n: u32) -> f64 {
    let mut product = 1.0;
    let mut i = 2;
    while i <= n {
        product *= i as f64; // exact up to 22!
        i += 1;
    }
    product
}

/// The coefficients of degree `first`, `first + 2`, ... with alternating signs.
const fn taylor<const N: usize>(first: u32) -> [f64; N] {
    let mut coefficients = [0.0; N];
    let mut i = 0;
    while i < N {
        let one = 1.0 / factorial(first + 2 * i as u32);
        coefficients[i] = if i % 2 == 0 { one } else { -one };
        i += 1;
    }
    coefficients
}

const fn odd_series<const N: usize>() -> [f64; N] {
    let mut coefficients = [0.0; N];
    let mut i = 0;
    while i < N {
        let one = 1.0 / (2 * i + 1) as f64;
        coefficients[i] = if i % 2 == 0 { one } else { -one };
        i += 1;
    }
    coefficients
}

/// Sine through degree 21, cosine through 22, arctangent through 23.
const SINE: [f64; 11] = taylor(1);
const COSINE: [f64; 12] = taylor(0);
const ARCTANGENT: [f64; 12] = odd_series();

fn horner(coefficients: &[f64], x: f64) -> f64 {
    let (last, rest) = coefficients.split_last().unwrap();
    rest.iter().rev().fold(*last, |sum, c| sum * x + c)
}

/// The argument brought to magnitude pi/2 at most, and whether it was reflected at pi.
fn reduce(x: f64) -> (f64, bool) {
    let mut r = fmod(x, TWOPI);
    if r > PI {
        r -= TWOPI;
    } else if r < -PI {
        r += TWOPI;
    }
    if r > HALF_PI {
        (PI - r, true)
    } else if r < -HALF_PI {
        (-PI - r, true)
    } else {
        (r, false)
    }
}

impl<R: Root> Elementary for Definitions<R> {
    const NAME: &'static str = R::NAME;

    fn sqrt(x: f64) -> f64 {
        R::sqrt(x)
    }

    fn sin_cos(x: f64) -> (f64, f64) {
        if !x.is_finite() {
            return (f64::NAN, f64::NAN);
        }
        let (r, reflected) = reduce(x);
        let square = r * r;
        let sine = horner(&SINE, square) * r;
        let cosine = horner(&COSINE, square);
        (sine, if reflected { -cosine } else { cosine })
    }

    fn sin(x: f64) -> f64 {
        if !x.is_finite() {
            return f64::NAN;
        }
        let (r, _) = reduce(x);
        horner(&SINE, r * r) * r
    }

    fn cos(x: f64) -> f64 {
        if !x.is_finite() {
            return f64::NAN;
        }
        let (r, reflected) = reduce(x);
        let cosine = horner(&COSINE, r * r);
        if reflected {
            -cosine
        } else {
            cosine
        }
    }

    fn atan2(y: f64, x: f64) -> f64 {
        if !(y.is_finite() && x.is_finite()) {
            return f64::NAN;
        }
        if y == 0.0 && x == 0.0 {
            return 0.0;
        }
        let (ay, ax) = (y.abs(), x.abs());
        let mut t = if ay > ax { ax / ay } else { ay / ax };
        for _ in 0..2 {
            t /= 1.0 + Self::sqrt(1.0 + t * t);
        }
        let mut angle = horner(&ARCTANGENT, t * t) * t * 4.0;
        if ay > ax {
            angle = HALF_PI - angle;
        }
        if x < 0.0 {
            angle = PI - angle;
        }
        if y < 0.0 {
            angle = -angle;
        }
        angle
    }

    fn pow_two_thirds(x: f64) -> f64 {
        cube_root(x * x)
    }

    fn pow_three_halves(x: f64) -> f64 {
        x * Self::sqrt(x)
    }

    fn pow_seven_halves(x: f64) -> f64 {
        x * x * x * Self::sqrt(x)
    }
}

// ------------------------------------------------------------ the system

/// The system's mathematical library, and the processor's square root.
#[derive(Clone, Copy, Debug)]
pub struct Libm;

impl Elementary for Libm {
    const NAME: &'static str = "libm";

    fn sqrt(x: f64) -> f64 {
        x.sqrt()
    }

    fn sin_cos(x: f64) -> (f64, f64) {
        x.sin_cos()
    }

    fn sin(x: f64) -> f64 {
        x.sin()
    }

    fn cos(x: f64) -> f64 {
        x.cos()
    }

    fn atan2(y: f64, x: f64) -> f64 {
        y.atan2(x)
    }

    fn pow_two_thirds(x: f64) -> f64 {
        x.powf(2.0 / 3.0)
    }

    fn pow_three_halves(x: f64) -> f64 {
        x.powf(1.5)
    }

    fn pow_seven_halves(x: f64) -> f64 {
        x.powf(3.5)
    }
}

#[cfg(test)]
mod tests {
    use super::*;
    use crate::random::Random;

    /// The square root by whole numbers is the processor's.
    #[test]
    fn square_root_is_the_processors() {
        let mut random = Random::new(106);
        let check = |x: f64| assert_eq!(square_root(x).to_bits(), x.sqrt().to_bits(), "{x:e}");
        for exponent in 0..2046u64 {
            check(f64::from_bits(exponent << 52));
            check(f64::from_bits((exponent << 52) + 1));
            check(f64::from_bits((exponent << 52 | ((1 << 52) - 1)).max(1)));
        }
        for _ in 0..200_000 {
            let x = f64::from_bits(random.next_u64() >> 1);
            if x.is_finite() {
                check(x);
            }
        }
        // Roots near a tie: squares of 54-bit numbers, and their neighbours.
        for _ in 0..100_000 {
            let odd = (random.next_u64() >> 10 | 1 << 53 | 1) as f64;
            let x = odd * odd;
            check(x);
            check(f64::from_bits(x.to_bits() + 1));
            check(f64::from_bits(x.to_bits() - 1));
        }
    }

    /// z cubed, in 64 bits and all above them.
    fn cubed(z: u64) -> (u128, u64) {
        let z = u128::from(z);
        let low = (z * z & u128::from(u64::MAX)) * z;
        ((z * z >> 64) * z + (low >> 64), low as u64)
    }

    /// Whichever guess it starts from, the cube root is the nearest, by cubes of all 162 bits.
    #[test]
    fn cube_root_is_nearest() {
        let mut random = Random::new(162);
        let check = |x: f64, off: i64| {
            let root = nearest_cube_root(x, f64::from_bits(x.cbrt().to_bits().wrapping_add_signed(off)));
            let field = x.to_bits() >> 52;
            let y = root.to_bits() - ((field / 3 + 681) << 52);
            let digits = x.to_bits() & ((1 << 52) - 1) | 1 << 52;
            let eight_n = (u128::from(digits << (field % 3)) << 43, 0);
            assert!(1 << 52 <= y && y <= 1 << 53, "{x:e}");
            assert!(cubed(2 * y - 1) < eight_n && eight_n < cubed(2 * y + 1), "{x:e}");
        };
        for exponent in 1..2047u64 {
            for off in [-4000, -1, 0, 1, 4000] {
                check(f64::from_bits(exponent << 52), off);
                check(f64::from_bits((exponent << 52) + 1), off);
                check(f64::from_bits(exponent << 52 | ((1 << 52) - 1)), off);
            }
        }
        for _ in 0..200_000 {
            let x = f64::from_bits(random.next_u64() >> 1);
            if x.is_normal() {
                check(x, (random.next_u64() % 8001) as i64 - 4000);
            }
        }
    }

    /// The two modes lie within a few units of the last place of each other.
    #[test]
    fn modes_are_near() {
        let mut random = Random::new(21);
        for _ in 0..100_000 {
            let x = random.uniform(-20.0, 20.0);
            let y = random.uniform(-20.0, 20.0);
            assert!((Document::sin(x) - Libm::sin(x)).abs() < 4e-15);
            assert!((Document::cos(x) - Libm::cos(x)).abs() < 4e-15);
            assert!((Document::atan2(y, x) - Libm::atan2(y, x)).abs() < 4e-15);
            let z = random.uniform(1e-4, 1e4);
            assert!((Document::pow_two_thirds(z) / Libm::pow_two_thirds(z) - 1.0).abs() < 4e-15);
            assert!((Document::pow_three_halves(z) / Libm::pow_three_halves(z) - 1.0).abs() < 4e-15);
            assert!((Document::pow_seven_halves(z) / Libm::pow_seven_halves(z) - 1.0).abs() < 4e-15);
        }
    }
}
