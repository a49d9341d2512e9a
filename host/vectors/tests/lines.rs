//! Lines are read back, and repeat for the same seed.

use vectors::answer::answer;
use vectors::call::{Call, FUNCTIONS, Function, Outcome, Refusal, line};
use vectors::cases::case;
use vectors::given::given;
use vectors::norms::{halvings, near_power_of_two, source_halvings};
use vectors::planted::{planted, planted_root};
use vectors::random::Random;
use vectors::read::read;
use vectors::roots::roots;
use vectors::width::Width;

/// The first lines of a function.
fn texts<T: Width>(function: Function, seed: u64, count: usize) -> Vec<String> {
    let mut r = Random::new(seed);
    let mut next = || {
        let call = case::<T>(function, &mut r);
        line(&call, &answer(&call))
    };
    (0..count).filter_map(|_| next()).collect()
}

fn are_read_back<T: Width>() {
    for (function, name) in FUNCTIONS {
        let lines = texts::<T>(function, 7, 20);
        for text in &lines {
            let (call, outcome) = read::<T>(text);
            assert_eq!(call.function.name(), name);
            assert_eq!(&line(&call, &outcome).unwrap(), text);
        }
        assert_eq!(texts::<T>(function, 7, 20), lines, "the same seed");
    }
}

#[test]
fn lines_are_read_back() {
    are_read_back::<f64>();
    are_read_back::<f32>();
}

/// The last line of document 01's bench, as a call.
#[test]
fn a_line_in_full() {
    let text = "powm 2 2 0 0 4 0 2000 4008000000000000 \
                4 3ff0000000000000 3ff0000000000000 0000000000000000 3ff0000000000000 0 0 \
                | ok 0 7ff0000000000000 0 1 4 3ff0000000000000 4008000000000000 0000000000000000 3ff0000000000000 0 0";
    let (call, _) = read::<f64>(text);
    assert_eq!(line(&call, &answer(&call)).unwrap(), text);
    let text = "powm 2 2 0 0 4 0 2000 40400000 4 3f800000 3f800000 00000000 3f800000 0 0 \
                | ok 0 7ff0000000000000 0 1 4 3f800000 40400000 00000000 3f800000 0 0";
    let (call, _) = read::<f32>(text);
    assert_eq!(line(&call, &answer(&call)).unwrap(), text);
}

/// Steps are written in hexadecimal, and a call that does not settle has 0 after them: 100 and no.
#[test]
fn steps_on_a_line() {
    let unsettled = given::<f64>(Function::Sqrtm).into_iter().filter_map(|call| line(&call, &answer(&call)));
    let start = "sqrtm 2 2 0 0 4 0 2000 0000000000000000 4 3fd4269e0cbda768 ";
    let text = unsettled.into_iter().find(|text| text.starts_with(start)).expect("the call is written out");
    let fields: Vec<&str> = text.split_once(" | ").unwrap().1.split(' ').collect();
    assert_eq!((fields[..2].to_vec(), &fields[3..6]), (vec!["ok", "0"], &["64", "0", "4"][..]));
    let (_, outcome) = read::<f64>(&text);
    assert_eq!(outcome.iterated(), Some((100, false)));
    let (_, outcome) = read::<f64>("logm 0 0 0 0 0 0 0 0000000000000000 0 0 0 | no 1 0 0");
    assert_eq!(outcome.iterated(), Some((0, false)));
}

#[test]
fn halvings_of_document_01() {
    let norms = [0.0, 1.0, 1f64.next_up(), 2.0, 8.0, 9.0, f64::MAX];
    assert_eq!(norms.map(halvings), [0, 0, 1, 1, 3, 4, 1024]);
    let norms = [0.0, 1.0, 1f32.next_up(), 2.0, 8.0, 9.0, f32::MAX];
    assert_eq!(norms.map(halvings), [0, 0, 1, 1, 3, 4, 128]);
}

/// Outside relative distance 2^-40 of a power of two, 2^-12 in f32, the source's count is document 01's: at the edges, and between.
fn agree_away_from_powers_of_two<T: Width>() {
    let mut r = Random::new(3);
    for k in -3..=T::LARGEST {
        let power = T::power(k);
        for _ in 0..200 {
            let norm = power * T::of(1.0 + r.unit());
            let compared = norm.is_finite() && !near_power_of_two(norm);
            assert!(!compared || halvings(norm) == source_halvings(norm), "{norm:e}", norm = norm.wide());
        }
        let distance = 2f64.powi(-(T::NEAR as i32));
        let above = T::of(1.0 + distance).next_up();
        let below = T::of(2.0 - 2.0 * distance).next_down();
        for edge in [power * above, power * below] {
            assert!(k < -1 || !near_power_of_two(edge));
            assert_eq!(halvings(edge), source_halvings(edge), "{:e}", edge.wide());
        }
        if k >= 0 {
            assert!(near_power_of_two(power) && near_power_of_two(power.next_down()));
            assert!(near_power_of_two(power * above.next_down()) && near_power_of_two(power * below.next_up()));
        }
    }
}

#[test]
fn halvings_agree_away_from_powers_of_two() {
    agree_away_from_powers_of_two::<f64>();
    agree_away_from_powers_of_two::<f32>();
}

/// The least norms where the counts part, one in each direction, by this machine's logarithm; such calls are left out.
#[test]
fn halvings_part_near_powers_of_two() {
    // From 1 to 2^9, each power of two and 2^13 numbers on each side of it.
    let mut norms = (0..=9).flat_map(|k| {
        let power = 2f64.powi(k).to_bits();
        (power - (1 << 13)..=power + (1 << 13)).map(f64::from_bits)
    });
    assert_eq!(norms.find(|x| source_halvings(*x) != halvings(*x)), Some(256f64.next_up()));
    assert_eq!((halvings(256f64.next_up()), source_halvings(256f64.next_up())), (9, 8));
    assert_eq!((0..1024).find(|k| source_halvings(2f64.powi(*k)) != *k as usize), Some(29));
    assert_eq!(source_halvings(2f64.powi(29)), 30);
    for norm in [256f64.next_up(), 2f64.powi(29)] {
        let mut call = Call::new(Function::Expm);
        (call.rows, call.columns, call.outputs[0], call.room) = (2, 2, 4, 8192);
        call.matrix = vec![norm, 0.0, 0.0, 0.0];
        assert!(matches!(answer(&call), Outcome::Parted));
    }
}

/// All f32 within relative distance 2^-12 of a power of two from 1 on, the powers themselves included.
fn near_powers() -> impl Iterator<Item = f32> {
    let power = |k: u32| (k + 127) << 23;
    (0..=127).flat_map(move |k| power(k) - (1 << 12)..=power(k) + (1 << 11)).map(f32::from_bits).chain(
        // Below 2^128, which is no number.
        (power(128) - (1 << 12)..power(128)).map(f32::from_bits),
    )
}

/// In f32 the counts part at 1,995 numbers, by this machine's logarithm; 8 of them are powers of two.
#[test]
fn halvings_part_near_powers_of_two_in_f32() {
    let parted: Vec<f32> = near_powers().filter(|x| source_halvings(*x) != halvings(*x)).collect();
    assert_eq!(parted.len(), 1995);
    let least = 8f32.next_up();
    assert_eq!((parted[0], halvings(least), source_halvings(least)), (least, 4, 3));
    let powers: Vec<u32> = (0..128).filter(|k| parted.contains(&f32::power(*k))).map(|k| k as u32).collect();
    assert_eq!(powers, [47, 55, 63, 94, 99, 110, 115, 126]);
    assert!(powers.iter().all(|k| source_halvings(f32::power(*k as i32)) == *k as usize + 1));
    let fewer = parted.iter().filter(|x| source_halvings(**x) < halvings(**x)).count();
    assert_eq!((fewer, parted.len() - fewer), (1927, 68));
    // The farthest are 53 numbers above a power of two, a relative distance of 2^-17.27, and 12 below one.
    let above = |x: &f32| x.to_bits() & ((1 << 23) - 1);
    assert_eq!(parted.iter().map(above).filter(|m| *m < 1 << 22).max(), Some(53));
    assert_eq!(parted.iter().map(|x| (1 << 23) - above(x)).filter(|m| *m < 1 << 22).max(), Some(12));
}

/// Every other positive f32: both counts agree. It takes some 20 s.
#[test]
#[ignore = "two thousand million logarithms"]
fn halvings_of_every_f32() {
    for x in (1..f32::INFINITY.to_bits()).map(f32::from_bits) {
        assert!(near_power_of_two(x) || source_halvings(x) == halvings(x), "{x:e}");
    }
}

/// The logarithm of [[1, 1e308], [0, 1]] is finite, but 2.5 times it is not. The source would square it without end.
#[test]
fn a_fractional_power_that_overflows() {
    let mut call = Call::new(Function::Powm);
    (call.rows, call.columns, call.outputs[0], call.room) = (2, 2, 4, 8192);
    (call.matrix, call.exponent) = (vec![1.0, 1e308, 0.0, 1.0], 2.5);
    assert!(matches!(answer(&call), Outcome::Refused(Refusal(12, 0, 0))));
}

/// The proviso of demand 3 is needed: the exponential of the matrix is finite, and frechet_expm's first output is not, at as many halvings. Two more
/// such calls are refused.
fn spoils_the_first_output<T: Width>(halvings: usize) {
    let done = |call: &Call<T>, finite: bool| match answer(call) {
        Outcome::Done(d) => d.halvings == halvings && d.outputs[0].iter().all(|x| x.is_finite()) == finite,
        _ => false,
    };
    let alone = |call: &Call<T>| Call::coded(Function::Expm, call.rows, &call.matrix, &[], T::zero());
    let calls = given::<T>(Function::FrechetExpm);
    assert_eq!(calls.iter().filter(|c| done(c, false) && done(&alone(c), true)).count(), 1);
    let last = calls.iter().rev().take(2);
    assert!(last.map(answer).all(|outcome| matches!(outcome, Outcome::Refused(Refusal(17, _, 0)))));
}

#[test]
fn a_direction_spoils_the_first_output() {
    spoils_the_first_output::<f64>(54);
    spoils_the_first_output::<f32>(50);
}

/// Powers that document 01's bench names: the zero matrix to the power -1 and to the power 0.
#[test]
fn powers_of_zero() {
    let calls = given::<f64>(Function::Powm);
    let zero = |p: f64| calls.iter().find(|c| c.matrix == [0.0; 4] && c.exponent == p).unwrap();
    assert!(matches!(answer(zero(-1.0)), Outcome::Refused(Refusal(13, 0, 0))));
    assert!(matches!(answer(zero(0.0)), Outcome::Done(done) if done.outputs[0] == [1.0, 0.0, 0.0, 1.0]));
}

/// The place of the one field that is wrong in its last bit: 0 is the first word after the bar.
fn wrong_place<T: Width>(call: &Call<T>, outcome: &Outcome<T>) -> usize {
    let (text, right) = (line(call, outcome).unwrap(), line(call, &answer(call)).unwrap());
    assert_eq!(text.len(), right.len());
    let fields = |text: &str| text.split_once(" | ").unwrap().1.split(' ').map(str::to_string).collect::<Vec<_>>();
    let (text, right) = (fields(&text), fields(&right));
    let wrong: Vec<usize> = (0..text.len()).filter(|k| text[*k] != right[*k]).collect();
    let [x, y] = [&text, &right].map(|fields| u64::from_str_radix(&fields[wrong[0]], 16).unwrap());
    assert_eq!((wrong.len(), x ^ y), (1, 1));
    wrong[0]
}

/// Planted vectors have another last bit in one number, an output's, the smallest pivot, the steps or settled, and nothing else is wrong in them.
fn are_wrong_in_one_bit<T: Width>() {
    for (function, name) in FUNCTIONS {
        let texts = || planted::<T>(function).map(|(call, outcome)| line(&call, &outcome).unwrap());
        assert_eq!(texts(), texts(), "the same each time");
        let [first, second, third, fourth] = planted::<T>(function);
        assert!(wrong_place(&first.0, &first.1) > 5, "{name}");
        assert_eq!(wrong_place(&second.0, &second.1), 2, "{name}");
        let right = answer(&second.0).smallest().unwrap();
        assert_eq!(right.is_finite(), function.factors(), "{name}");
        assert_eq!((wrong_place(&third.0, &third.1), wrong_place(&fourth.0, &fourth.1)), (3, 4), "{name}");
    }
    let (x, root) = planted_root::<T>();
    assert_eq!(root ^ T::of_bits(x).sqrt().bits(), 1);
}

#[test]
fn planted_vectors_are_wrong_in_one_bit() {
    are_wrong_in_one_bit::<f64>();
    are_wrong_in_one_bit::<f32>();
}

/// A root is the nearest number, by compared squares of whole numbers, as document 01 judges it. Some lie next to a middle, on either side.
fn are_nearest<T: Width>() {
    let pairs = roots::<T>();
    assert!(pairs.len() >= 200);
    let (mut above, mut below) = (0, 0);
    for (x, root) in pairs {
        let (x, root) = (T::of_bits(x), T::of_bits(root));
        if x.is_nan() || x <= T::zero() || !x.is_finite() {
            assert!(root.is_nan() || root.bits() == x.bits());
            continue;
        }
        // The root is m 2^e and x is k 2^d. The middles beside the root are (2m - 1) 2^(e-1) and (2m + 1) 2^(e-1); x lies between their squares.
        let ((m, e), (k, d)) = (whole(root), whole(x));
        let square = k << (d - 2 * (e - 1));
        let (lower, upper) = ((2 * m - 1).pow(2), (2 * m + 1).pow(2));
        assert!(lower <= square && square <= upper, "{:e}", x.wide());
        above += usize::from(square - lower < 48);
        below += usize::from(upper - square < 48);
    }
    assert!(above >= 8 && below >= 8, "{above} {below}");
}

#[test]
fn roots_are_nearest() {
    are_nearest::<f64>();
    are_nearest::<f32>();
}

/// A positive number as a whole number times a power of two.
fn whole<T: Width>(x: T) -> (u128, i32) {
    let one = 1 << T::FRACTION;
    let exponent = (x.bits() >> T::FRACTION) as i32;
    let fraction = (x.bits() & (one - 1)) as u128;
    if exponent == 0 { (fraction, T::LEAST) } else { (fraction | one as u128, T::LEAST - 1 + exponent) }
}
