//! What a call must report and leave, and what is otherwise.

use crate::entries::Told;
use crate::lent::{Lent, Slice, returned};
use vectors::call::{Call, Done, Outcome, Refusal, word};
use vectors::width::Width;

/// How many numbers of a workspace are cleared.
pub const CLEARED: usize = 8192;

/// What became of a call that did nothing wrong.
#[derive(Clone, Copy, Debug, PartialEq, Eq)]
pub enum Verdict {
    Compared,
    /// Outside the compared domain; true where the call does as the source all the same.
    LeftOut(bool),
}

/// The numbers written, every NaN as one.
pub fn words<T: Width>(written: &[T::Word]) -> Vec<u64> {
    written.iter().map(|x| word(T::of_bits((*x).into()))).collect()
}

fn wanted_words<T: Width>(numbers: &[T]) -> Vec<u64> {
    numbers.iter().map(|x| word(*x)).collect()
}

/// What is not as document 01 says, whatever the call computes. After a refusal the outputs and the pivots are as they were lent. After 1 to 11 the
/// workspace is too; otherwise its first 8,192 numbers are +0 and the others are as they were lent.
pub fn fault<T: Width>(number: usize, before: &Lent<T>, after: &Lent<T>) -> Option<&'static str> {
    let cleared = if (1..=11).contains(&number) { 0 } else { CLEARED.min(before.room.lent().len()) };
    let (room, left) = (before.room.lent(), after.room.lent());
    if number != 0 && before.outputs != after.outputs {
        Some("an output is not as it was lent")
    } else if number != 0 && before.pivots != after.pivots {
        Some("the pivots are not as they were lent")
    } else if left[..cleared].iter().any(|x| *x != T::low(0)) {
        Some("the workspace is not cleared")
    } else if room[cleared..] != left[cleared..] {
        Some("the workspace is not as it was lent")
    } else if guards(before) != guards(after) {
        Some("a place beside a lent slice is changed")
    } else {
        None
    }
}

/// The bits of all guards.
fn guards<T: Width>(lent: &Lent<T>) -> Vec<u64> {
    let of = |slice: &Slice<T::Word>| slice.guards().concat().into_iter().map(Into::into).collect::<Vec<u64>>();
    let mut all: Vec<u64> = [&lent.outputs[0], &lent.outputs[1], &lent.room, &lent.numbers].map(of).concat();
    all.extend(lent.pivots.guards().concat().iter().map(|x| *x as u64));
    all
}

/// What is not as the source has it: the report with its smallest pivot, its steps and whether they settled, the outputs, the pivots, the numbers that are
/// returned.
fn difference<T: Width>(call: &Call<T>, done: &Done<T>, after: &Lent<T>, told: Told) -> Option<String> {
    let Done { halvings, steps, settled, .. } = *done;
    let wanted = Told { number: 0, report: [halvings, 0], smallest: done.smallest.to_bits(), steps, settled };
    if told != wanted {
        return Some(format!("wanted {wanted:?}\n  given  {told:?}"));
    }
    let [first, second] = after.outputs.each_ref().map(|x| words::<T>(x.lent()));
    let numbers = words::<T>(after.numbers.lent());
    let given = if returned(call.function) > 0 { [numbers, second] } else { [first, second] };
    let wanted = done.outputs.each_ref().map(|x| wanted_words(x));
    if given != wanted {
        return Some(format!("outputs or numbers\n  wanted {wanted:x?}\n  given  {given:x?}"));
    }
    let pivots = after.pivots.lent();
    (pivots != done.pivots).then(|| format!("pivots\n  wanted {:?}\n  given  {pivots:?}", done.pivots))
}

/// What a refused call does otherwise: the number, the details, a smallest pivot that is not plus infinity, steps that are not 0, a call that settled, and
/// returned numbers that are not +0.
fn unrefused<T: Width>(Refusal(number, first, second): Refusal, after: &Lent<T>, told: Told) -> Option<String> {
    let smallest = f64::INFINITY.to_bits();
    let wanted = Told { number, report: [first, second], smallest, steps: 0, settled: false };
    if told != wanted {
        return Some(format!("wanted {wanted:?}\n  given  {told:?}"));
    }
    let numbers = after.numbers.lent();
    numbers.iter().any(|x| *x != T::low(0)).then(|| format!("numbers beside a refusal: {numbers:x?}"))
}

/// Holds what the call reported and left to what it must; or says what is otherwise.
pub fn check<T: Width>(
    call: &Call<T>,
    outcome: &Outcome<T>,
    before: &Lent<T>,
    after: &Lent<T>,
    told: Told,
) -> Result<Verdict, String> {
    if let Some(fault) = fault(told.number, before, after) {
        return Err(format!("{told:?}: {fault}"));
    }
    match outcome {
        Outcome::Done(done) if !done.near => difference(call, done, after, told).map_or(Ok(Verdict::Compared), Err),
        Outcome::Refused(refusal) => unrefused(*refusal, after, told).map_or(Ok(Verdict::Compared), Err),
        _ if told.number != 0 => Err(format!("refused {told:?} outside the compared domain")),
        Outcome::Done(done) => Ok(Verdict::LeftOut(difference(call, done, after, told).is_none())),
        Outcome::Parted => Ok(Verdict::LeftOut(false)),
    }
}
