//! Calls to try, made from a seed and a number.

use crate::lent::Lent;
use vectors::call::{Call, FUNCTIONS, Function};
use vectors::cases::case;
use vectors::matrices::matrix;
use vectors::random::Random;
use vectors::width::Width;

/// A call, and the generator that fills what it is lent.
pub struct Trial<T> {
    pub call: Call<T>,
    random: Random,
}

impl<T: Width> Trial<T> {
    /// What the call is lent, the same each time.
    pub fn lent(&self) -> Lent<T> {
        Lent::new(&self.call, &mut self.random.clone())
    }
}

/// A trial of a call that is written out.
pub fn written<T>(call: Call<T>) -> Trial<T> {
    Trial { call, random: Random::new(0) }
}

/// Another length for one thing that is lent.
fn mislay<T: Width>(call: &mut Call<T>, r: &mut Random) {
    match r.below(4) {
        0 if call.function.output_count() > 0 => call.outputs[0] = r.below(2 * call.outputs[0] + 2),
        1 if call.function.output_count() > 1 => call.outputs[1] = r.below(2 * call.outputs[1] + 2),
        2 if call.function.has_workspace() => call.room = r.below(9000),
        3 if call.function.lu() => {
            let length = r.below(2 * call.pivots.len() + 2);
            call.pivots.resize(length, 0);
        }
        _ => {}
    }
}

/// Sizes that no slice has, and whose products are no whole numbers of 64 bits. All of them are the same, or one is another.
fn enlarge<T: Width>(call: &mut Call<T>, r: &mut Random) {
    let n = r.pick(&[1 << 16, 1 << 32, (1 << 32) + 1, 1 << 61, usize::MAX / 2 + 1, usize::MAX]);
    let sizes = [&mut call.rows, &mut call.columns, &mut call.companion_rows, &mut call.companion_columns];
    let one = r.once_in(2).then(|| r.below(4));
    for (k, size) in sizes.into_iter().enumerate() {
        if one.is_none_or(|one| one == k) {
            *size = n;
        }
    }
}

/// Half of the workspaces that are long enough are longer, so that they have numbers that are not cleared.
fn call<T: Width>(r: &mut Random) -> Call<T> {
    let function = FUNCTIONS[r.below(FUNCTIONS.len())].0;
    let mut call = case::<T>(function, r);
    let square = (1..=8).contains(&call.rows) && call.matrix.len() == call.rows * call.rows;
    if square && (function.coded() || function == Function::LuCompute) && r.once_in(4) {
        call.matrix = matrix(call.rows, r);
    }
    if call.room >= 8192 && r.once_in(2) {
        call.room += 1 + r.below(100);
    }
    if r.once_in(24) {
        mislay(&mut call, r);
    }
    if r.once_in(64) {
        enlarge(&mut call, r);
    }
    call
}

/// A trial depends on the width, the seed and its number only, so that one can be run again alone.
pub fn trial<T: Width>(seed: u64, number: u64) -> Trial<T> {
    let mut r = Random::new(Random::new(seed).bits() ^ number.wrapping_mul(0x9e37_79b9_7f4a_7c15));
    let call = call(&mut r);
    Trial { call, random: r }
}
