//! What a call is lent, filled with NaNs. The contracts of the port have one NaN, so they say nothing of a NaN's sign and payload; here both are compared.

use vectors::call::{Call, Function};
use vectors::random::Random;
use vectors::width::Width;

/// Places before and after each lent slice, which a call must not touch either.
const GUARD: usize = 8;

/// A lent slice, between guards.
#[derive(Clone, Debug, PartialEq, Eq)]
pub struct Slice<W>(Vec<W>);

impl<W: Copy> Slice<W> {
    /// A slice of this length, each place filled anew.
    fn new(length: usize, fill: impl FnMut() -> W) -> Slice<W> {
        Slice(std::iter::repeat_with(fill).take(length + 2 * GUARD).collect())
    }

    pub fn lent(&self) -> &[W] {
        &self.0[GUARD..self.0.len() - GUARD]
    }

    pub fn lent_mut(&mut self) -> &mut [W] {
        let end = self.0.len() - GUARD;
        &mut self.0[GUARD..end]
    }

    /// The guards, one after the other.
    pub fn guards(&self) -> [&[W]; 2] {
        [&self.0[..GUARD], &self.0[self.0.len() - GUARD..]]
    }

    /// The place after the lent slice.
    pub fn after_mut(&mut self) -> &mut W {
        let end = self.0.len() - GUARD;
        &mut self.0[end]
    }
}

/// What a call is lent: the bits of its outputs and of its workspace, the pivots that lu_compute writes, and the places of the numbers that the call
/// returns. Numbers are kept as whole numbers of their bits, which nothing here can change on the way.
#[derive(Clone, Debug)]
pub struct Lent<T: Width> {
    pub outputs: [Slice<T::Word>; 2],
    pub room: Slice<T::Word>,
    pub pivots: Slice<usize>,
    pub numbers: Slice<T::Word>,
}

/// A NaN of either sign, quiet or signalling, with a payload.
fn nan<T: Width>(random: &mut Random) -> T::Word {
    T::low(random.bits() | T::infinity_bits() | 1)
}

/// How many numbers a call returns: the ratio and both norms, or the determinant.
pub fn returned(function: Function) -> usize {
    match function {
        Function::CondExpm => 3,
        Function::LuDeterminant => 1,
        _ => 0,
    }
}

impl<T: Width> Lent<T> {
    /// What this call is lent, as long as it says: NaNs, and pivots that are none.
    pub fn new(call: &Call<T>, random: &mut Random) -> Lent<T> {
        let mut nans = |length: usize| Slice::new(length, || nan::<T>(random));
        let outputs = [nans(call.outputs[0]), nans(call.outputs[1])];
        let (room, numbers) = (nans(call.room), nans(returned(call.function)));
        let pivots = if call.function == Function::LuCompute { call.pivots.len() } else { 0 };
        Lent { outputs, room, pivots: Slice::new(pivots, || random.bits() as usize), numbers }
    }
}
