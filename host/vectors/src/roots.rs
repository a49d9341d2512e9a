//! Square roots: pairs of a number's bits and its root's, by the width's own square root.

use crate::call::word;
use crate::random::Random;
use crate::width::Width;

/// A number m below 2^k whose square is r modulo 2^k, where r is 1 modulo 8. The others are 2^k - m, and both with the bit k - 1 changed.
fn root_modulo(r: i128, k: u32) -> i128 {
    let mut m: i128 = 1;
    for bit in 3..k {
        // m² is r modulo 2^bit, and made so modulo the next power.
        if (m * m - r) >> bit & 1 == 1 {
            m += 1 << (bit - 1);
        }
    }
    m
}

/// Numbers whose roots lie next to the middle of two numbers: no root is a middle itself. In f64 a middle is m / 2^27 for an odd m from 2^53 to 2^54,
/// and (m² - r) / 2^54 is a number where m² is r modulo 2^54, or modulo 2^55 from 2^107 on; r above 0 has the root below the middle. With p digits, 54 is
/// p + 1; where that is odd the number is halved, so that the middle is m over a whole power of two.
fn beside_middles<T: Width>() -> Vec<T> {
    let p = T::FRACTION + 1;
    let unit = if p % 2 == 0 { 0.5 } else { 1.0 };
    let mut numbers = Vec::new();
    for r in [1, 9, 17, 25, 33, 41, -7, -15, -23, -31, -39, -47] {
        for k in [p + 1, p + 2] {
            let m = root_modulo(r, k);
            let half = 1 << (k - 1);
            for m in [m, m ^ half, (1 << k) - m, (1 << k) - (m ^ half)] {
                let square = m * m;
                let wide = square >> (2 * p + 1) == 1;
                if 1 << p <= m && m < 1 << (p + 1) && wide == (k == p + 2) {
                    numbers.push(T::of(((square - r) >> (p + 1)) as f64 * unit));
                }
            }
        }
    }
    numbers
}

/// The number itself and both beside it.
fn three<T: Width>(x: T) -> [T; 3] {
    [x.next_down(), x, x.next_up()]
}

/// Numbers at the edges of the format.
fn edges<T: Width>() -> Vec<T> {
    let one = T::one();
    let least_normal = T::of_bits(1 << T::FRACTION);
    vec![
        T::zero(),
        -T::zero(),
        T::infinity(),
        -T::infinity(),
        T::of_bits(T::nan_bits()),
        one,
        T::of_bits(1),
        T::of_bits(2),
        T::of_bits(3),
        T::of_bits(4),
        least_normal.next_down(),
        least_normal,
        least_normal.next_up(),
        T::largest().next_down(),
        T::largest(),
        -T::largest(),
        -one,
        T::of(-4.0),
        -T::of_bits(1),
        -least_normal,
        T::of(0.1),
        one.next_up() - one,
    ]
}

pub fn roots<T: Width>() -> Vec<(u64, u64)> {
    let mut numbers: Vec<T> = edges();
    let mut r = Random::new(1);
    let (least, largest) = (T::LEAST, T::LARGEST);
    // Powers of two with odd and even exponents, subnormal ones too, and their neighbours.
    let spread = (least..=largest).step_by(largest as usize / 11 + 4);
    for k in spread.chain([least, least + 1, -largest, 1 - largest, -2, -1, 1, 2, largest - 1, largest]) {
        numbers.extend(three(T::power(k)));
    }
    // Squares of whole numbers of half the digits, which are exact, and their neighbours.
    let half = T::FRACTION as usize / 2 + T::FRACTION as usize % 2;
    let step = largest / 20 - 1;
    for i in 0..20 {
        let whole = (1 << (half - 1) | r.below(1 << (half - 1))) as f64;
        numbers.extend(three(T::of(whole * whole * 4f64.powi(i * step - 10 * step))));
    }
    // Squares of numbers from 1 to 2, rounded, and their neighbours.
    for _ in 0..20 {
        let y = T::of_bits(T::one().bits() | r.bits() >> (64 - T::FRACTION));
        numbers.extend(three(y * y));
    }
    for _ in 0..40 {
        numbers.push(T::of_bits(r.bits() >> (64 - T::FRACTION)));
    }
    for _ in 0..60 {
        numbers.push(r.finite::<T>().magnitude());
    }
    for _ in 0..20 {
        numbers.push(-r.finite::<T>().magnitude());
    }
    numbers.extend(beside_middles::<T>());
    numbers.iter().map(|x| (word(*x), word(x.sqrt()))).collect()
}
