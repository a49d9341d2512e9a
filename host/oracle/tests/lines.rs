//! Lines of document 01, run on the source.

use oracle::{Lu, LuError, MatFunError};

const TWO_TO_MINUS_51: f64 = 2.0 * f64::EPSILON;

fn bits(numbers: &[f64]) -> Vec<u64> {
    numbers.iter().map(|x| x.to_bits()).collect()
}

#[test]
fn lu_of_an_exchange() {
    let lu = Lu::compute(2, 2, &[0.0, 1.0, 2.0, 0.0]).unwrap();
    assert_eq!(bits(&lu.factors()), bits(&[2.0, 0.0, 0.0, 1.0]));
    assert_eq!(lu.pivots(), [1, 1]);
    assert_eq!(lu.determinant(), -2.0);
}

#[test]
fn lu_takes_the_first_of_equal_pivots() {
    let lu = Lu::compute(2, 2, &[1.0, 0.0, -1.0, 1.0]).unwrap();
    assert_eq!(lu.pivots(), [0, 1]);
}

#[test]
fn lu_refuses_at_the_tolerance() {
    let refused = Lu::compute(2, 2, &[TWO_TO_MINUS_51, 0.0, 0.0, 1.0]);
    assert!(matches!(refused, Err(LuError::Singular { index: 0 })));
    assert!(Lu::compute(2, 2, &[TWO_TO_MINUS_51.next_up(), 0.0, 0.0, 1.0]).is_ok());
}

#[test]
fn lu_of_order_0() {
    let lu = Lu::<f64>::compute(0, 0, &[]).unwrap();
    assert_eq!(lu.determinant(), 1.0);
    assert_eq!(lu.solve(0, 3, &[]).unwrap(), []);
}

#[test]
fn pivots_are_the_exchanged_rows() {
    // Row 2 comes to the top, then old row 0, now in row 2, comes to the middle.
    let a = [1.0, 4.0, 0.0, 2.0, 1.0, 0.0, 8.0, 0.0, 1.0];
    let lu = Lu::compute(3, 3, &a).unwrap();
    assert_eq!(lu.pivots(), [2, 2, 2]);
    let x = lu.solve(3, 1, &[5.0, 3.0, 9.0]).unwrap();
    assert_eq!(x, [1.0, 1.0, 1.0]);
}

#[test]
fn powm_of_a_shear() {
    let cube = oracle::powm(2, 2, &[1.0, 1.0, 0.0, 1.0], 3.0).unwrap();
    assert_eq!(bits(&cube), bits(&[1.0, 3.0, 0.0, 1.0]));
}

#[test]
fn powm_of_zero() {
    assert_eq!(oracle::powm(2, 2, &[0.0; 4], -1.0), Err(MatFunError::NotConverged));
    assert_eq!(oracle::powm(2, 2, &[0.0; 4], 0.0).unwrap(), [1.0, 0.0, 0.0, 1.0]);
}

#[test]
fn powm_once_multiplies() {
    let once = oracle::powm(2, 2, &[1.0, -0.0, -0.0, 1.0], 1.0).unwrap();
    assert_eq!(bits(&once), bits(&[1.0, 0.0, 0.0, 1.0]));
}

#[test]
fn cond_expm_of_zero() {
    assert_eq!(oracle::cond_expm(4, 4, &[0.0; 16]), Ok(0.5));
}

#[test]
fn order_1() {
    assert_eq!(oracle::sqrtm(1, 1, &[4.0]).unwrap(), [2.0]);
    assert_eq!(bits(&oracle::sqrtm(1, 1, &[-0.0]).unwrap()), bits(&[-0.0]));
    assert_eq!(oracle::logm(1, 1, &[0.0]), Err(MatFunError::NotDefined));
    assert_eq!(oracle::logm(1, 1, &[-0.0]), Err(MatFunError::NotDefined));
    let (root, derivative) = oracle::frechet_sqrtm(1, 1, &[-0.0], 1, 1, &[1.0]).unwrap();
    assert_eq!((bits(&root), bits(&derivative)), (bits(&[-0.0]), bits(&[0.0])));
}

#[test]
fn shapes_are_refused() {
    assert_eq!(oracle::expm::<f64>(0, 3, &[]), Err(MatFunError::EmptyMatrix));
    assert_eq!(oracle::expm(2, 3, &[0.0; 6]), Err(MatFunError::NotSquare { nrows: 2, ncols: 3 }));
    let refused = oracle::frechet_expm(2, 2, &[0.0; 4], 2, 3, &[0.0; 6]);
    assert_eq!(refused, Err(MatFunError::NotSquare { nrows: 2, ncols: 3 }));
}

/// Newton's root of -3 I goes from I to -I and back, and after 100 steps answers I. So this logarithm is 0.
#[test]
fn a_root_that_runs_out_of_steps_answers() {
    let log = oracle::logm(2, 2, &[-3.0, 0.0, 0.0, -3.0]).unwrap();
    assert_eq!(bits(&log), bits(&[0.0; 4]));
    assert_eq!(oracle::logm(2, 2, &[-1.0, 0.0, 0.0, -1.0]), Err(MatFunError::NotConverged));
}

/// 100 roots leave the entry at 1e308 × 2^-100; the logarithm is still exact.
#[test]
fn a_logarithm_that_runs_out_of_roots_answers() {
    let log = oracle::logm(2, 2, &[1.0, 1e308, 0.0, 1.0]).unwrap();
    assert_eq!(bits(&log), bits(&[0.0, 1e308, 0.0, 0.0]));
}

#[test]
fn kron_and_kron_sum() {
    let product = oracle::kron(1, 2, &[1.0, 2.0], 2, 1, &[3.0, 4.0]);
    assert_eq!(product, [3.0, 6.0, 4.0, 8.0]);
    let sum = oracle::kron_sum(2, 2, &[1.0, 2.0, 3.0, 4.0], 2, 2, &[10.0, 20.0, 30.0, 40.0]);
    let wanted = [[11.0, 20.0, 2.0, 0.0], [30.0, 41.0, 0.0, 2.0], [3.0, 0.0, 14.0, 20.0], [0.0, 3.0, 30.0, 44.0]];
    assert_eq!(sum, wanted.concat());
    // An infinity times the 0 of the identity is NaN.
    assert!(oracle::kron_sum(1, 1, &[f64::INFINITY], 2, 2, &[0.0; 4])[1].is_nan());
}

/// Root S of [[1, 4], [0, 9]] is [[1, 1], [0, 3]]; the derivative X solves S X + X (S transposed) = E.
#[test]
fn frechet_sqrtm_uses_the_transpose() {
    let (s, x) = oracle::frechet_sqrtm(2, 2, &[1.0, 4.0, 0.0, 9.0], 2, 2, &[1.0, 0.0, 0.0, 0.0]).unwrap();
    for i in 0..2 {
        for j in 0..2 {
            let mut sum = 0.0;
            for k in 0..2 {
                sum += s[2 * i + k] * x[2 * k + j] + x[2 * i + k] * s[2 * j + k];
            }
            let e: f64 = if i + j == 0 { 1.0 } else { 0.0 };
            assert!((sum - e).abs() < 1e-12);
        }
    }
}

/// The source scales by powf of 2; on this machine these powers are exact.
#[test]
fn powers_of_two_are_exact() {
    let mut power = 1.0f64;
    for s in 0..=1024 {
        assert_eq!(2.0f64.powf(-(s as f64)).to_bits(), power.to_bits(), "2^-{s}");
        power *= 0.5;
    }
}

/// The same in f32, where 2^-128 is subnormal.
#[test]
fn powers_of_two_are_exact_in_f32() {
    let mut power = 1.0f32;
    for s in 0..=128 {
        assert_eq!(2.0f32.powf(-(s as f32)).to_bits(), power.to_bits(), "2^-{s}");
        power *= 0.5;
    }
    assert_eq!(2.0f32.powf(100.0), (2f64.powi(100)) as f32);
}

/// In f32 the machine step is 2^-23.
#[test]
fn lu_refuses_at_the_tolerance_of_f32() {
    let two_to_minus_22 = 2f32.powi(-22);
    let refused = Lu::compute(2, 2, &[two_to_minus_22, 0.0, 0.0, 1.0]);
    assert!(matches!(refused, Err(LuError::Singular { index: 0 })));
    assert!(Lu::compute(2, 2, &[two_to_minus_22.next_up(), 0.0, 0.0, 1.0]).is_ok());
}

/// The exponent is widened for the integer test: in f32 the number after 3 is no integer, and the nearest to 1e-14 counts as 0.
#[test]
fn powm_widens_the_exponent() {
    let shear = [1.0f32, 1.0, 0.0, 1.0];
    assert_eq!(oracle::powm(2, 2, &shear, 3.0).unwrap(), [1.0, 3.0, 0.0, 1.0]);
    // The negated identity has whole powers and no logarithm.
    let turned = [-1.0f32, 0.0, 0.0, -1.0];
    assert_eq!(oracle::powm(2, 2, &turned, 1e-14).unwrap(), [1.0, 0.0, 0.0, 1.0]);
    assert_eq!(oracle::powm(2, 2, &turned, 1e-14f32.next_up()), Err(MatFunError::NotConverged));
    assert_eq!(oracle::powm(2, 2, &turned, 3f32.next_up()), Err(MatFunError::NotConverged));
}

/// The step of frechet_logm is the f32 root of 2^-23. The logarithms of the identity and of the identity with that step above the diagonal are exact, so
/// the derivative is 1 there.
#[test]
fn frechet_logm_in_f32() {
    let (log, derivative) = oracle::frechet_logm(2, 2, &[1.0f32, 0.0, 0.0, 1.0], 2, 2, &[0.0, 1.0, 0.0, 0.0]).unwrap();
    assert_eq!((log, derivative), (vec![0.0; 4], vec![0.0, 1.0, 0.0, 0.0]));
}
