//! The harness itself, tried on a stand-in for the port that does what it must, and on stand-ins with a fault. At both widths.

use calls::check::CLEARED;
use calls::entries::Told;
use calls::lent::{Lent, Slice, returned};
use calls::make::{Trial, trial, written};
use calls::run::{judge, run};
use oracle::Lu;
use vectors::answer::answer;
use vectors::call::{Call, FUNCTIONS, Function, Function::*, Outcome, Refusal, word};
use vectors::given::given;
use vectors::reports::{Iteration, Part, Part::*, Run, repeated, settled, smallest, smallest_pivot, steps};
use vectors::sylvester::{layout, transposed};
use vectors::width::Width;

/// Trials, with the outcome that each must have.
struct Tries<T>(Vec<(Trial<T>, Outcome<T>)>);

fn put<T: Width>(slice: &mut Slice<T::Word>, numbers: &[T]) {
    for (to, x) in slice.lent_mut().iter_mut().zip(numbers) {
        *to = T::low(x.bits());
    }
}

/// What a call with this outcome must do. Where the source counts other halvings, the outputs are left as they are.
fn stand_in<T: Width>(outcome: &Outcome<T>, call: &Call<T>, lent: &mut Lent<T>) -> Told {
    let (number, report) = match outcome {
        Outcome::Done(done) => (0, [done.halvings, 0]),
        Outcome::Refused(Refusal(number, first, second)) => (*number, [*first, *second]),
        Outcome::Parted => (0, [0, 0]),
    };
    if !(1..=11).contains(&number) {
        lent.room.lent_mut().iter_mut().take(CLEARED).for_each(|x| *x = T::low(0));
    }
    match outcome {
        Outcome::Done(done) if returned(call.function) > 0 => put(&mut lent.numbers, &done.outputs[0]),
        Outcome::Done(done) => {
            put(&mut lent.outputs[0], &done.outputs[0]);
            put(&mut lent.outputs[1], &done.outputs[1]);
            lent.pivots.lent_mut().copy_from_slice(&done.pivots);
        }
        _ => put(&mut lent.numbers, &[T::zero(); 3]),
    }
    let smallest = outcome.smallest().unwrap_or(f64::INFINITY).to_bits();
    let (steps, settled) = outcome.iterated().unwrap_or((0, true));
    Told { number, report, smallest, steps, settled }
}

impl<T: Width> Tries<T> {
    fn new() -> Tries<T> {
        let tried = |t: Trial<T>| {
            let outcome = answer(&t.call);
            (t, outcome)
        };
        // Those that are written out have steps that run out, or settle in the last pass.
        let iterated = FUNCTIONS.into_iter().map(|(function, _)| function).filter(|f| f.iterates());
        let iterated = iterated.flat_map(given).map(written);
        Tries((0..3000).map(|k| trial(1, k)).chain(iterated).map(tried).collect())
    }

    /// The first call that is found of a stand-in that is changed after it did what it must, and what is said of it.
    #[track_caller]
    fn found(&self, change: impl Fn(&Call<T>, &mut Lent<T>, &mut Told)) -> (&Call<T>, String) {
        let fault = |t: &Trial<T>, outcome: &Outcome<T>| {
            let entry = |call: &Call<T>, lent: &mut Lent<T>| {
                let mut told = stand_in(outcome, call, lent);
                change(call, lent, &mut told);
                told
            };
            judge(&entry, t, outcome).err()
        };
        let first = self.0.iter().find_map(|(t, outcome)| fault(t, outcome).map(|fault| (&t.call, fault)));
        first.expect("a difference")
    }

    /// The function of the first call that is found.
    #[track_caller]
    fn function(&self, change: impl Fn(&Call<T>, &mut Lent<T>, &mut Told)) -> Function {
        self.found(change).0.function
    }
}

/// Another bit at a place, where the slice has it.
fn flip<T: Width>(slice: &mut Slice<T::Word>, at: usize, bit: u32) {
    if let Some(x) = slice.lent_mut().get_mut(at) {
        *x = T::low((*x).into() ^ 1 << bit);
    }
}

/// Another last bit of the last number.
fn flip_last<T: Width>(slice: &mut Slice<T::Word>) {
    let at = slice.lent().len().wrapping_sub(1);
    flip::<T>(slice, at, 0);
}

fn wrong_numbers<T: Width>(tries: &Tries<T>) {
    tries.found(|_, lent, told| {
        if told.number == 0 {
            flip_last::<T>(&mut lent.outputs[0])
        }
    });
    let function = tries.function(|_, lent, told| {
        if told.number == 0 {
            flip_last::<T>(&mut lent.outputs[1])
        }
    });
    assert!(function.directed());
    for (wrong, at) in [(CondExpm, 0), (CondExpm, 1), (CondExpm, 2), (LuDeterminant, 0)] {
        for bit in [0, T::BITS - 1] {
            let change = |call: &Call<T>, lent: &mut Lent<T>, told: &mut Told| {
                if call.function == wrong && told.number == 0 {
                    flip::<T>(&mut lent.numbers, at, bit);
                }
            };
            assert_eq!(tries.function(change), wrong);
        }
    }
    // One function alone, from order 3 on.
    let (call, _) = tries.found(|call, lent, told| {
        if call.function == Sinm && call.rows >= 3 && told.number == 0 {
            flip::<T>(&mut lent.outputs[0], 8, 0);
        }
    });
    assert!(call.function == Sinm && call.rows >= 3);
}

/// The refusals that calls meet; 15 and 16 are a sheet's.
const REFUSALS: [usize; 15] = [1, 2, 3, 4, 5, 6, 7, 8, 9, 10, 11, 12, 13, 14, 17];

/// Halvings and details that are not the right ones, and numbers of other refusals. At 8 and 10 to 13 both details are 0.
fn wrong_reports<T: Width>(tries: &Tries<T>) {
    for place in 0..2 {
        for number in [0].into_iter().chain(REFUSALS) {
            let (_, fault) = tries.found(|_, _, told| {
                if told.number == number {
                    told.report[place] += 1
                }
            });
            assert!(fault.contains(&format!("number: {number},")), "{fault}");
        }
    }
    for number in REFUSALS {
        let (_, fault) = tries.found(|_, _, told| {
            if told.number == number {
                told.number = number % 11 + 1
            }
        });
        assert!(number > 11 || fault.contains(&format!("wanted Told {{ number: {number},")), "{fault}");
    }
}

/// A smallest pivot that is wrong in the last bit, of each function, and one that is not plus infinity after a refusal.
fn wrong_smallest<T: Width>(tries: &Tries<T>) {
    for (wrong, _) in FUNCTIONS {
        let change = |call: &Call<T>, _: &mut Lent<T>, told: &mut Told| {
            if call.function == wrong && told.number == 0 {
                told.smallest ^= 1
            }
        };
        assert_eq!(tries.function(change), wrong);
    }
    let others = [0.0, 1.0, f64::MAX, f64::NAN, f64::NEG_INFINITY].map(f64::to_bits);
    for number in REFUSALS {
        for smallest in others {
            let (_, fault) = tries.found(|_, _, told| {
                if told.number == number {
                    told.smallest = smallest
                }
            });
            assert!(fault.contains(&format!("number: {number},")), "{fault}");
        }
    }
    // What was factored before the refusal, in a square root's first pass, in a root whose system is refused, or in a logarithm.
    for wrong in [Sqrtm, Logm, FrechetLogm, FrechetSqrtmSylvester, Powm] {
        let change = |call: &Call<T>, _: &mut Lent<T>, told: &mut Told| {
            if call.function == wrong && told.number == 13 {
                told.smallest = smallest(&repeated(call, None).factorings).to_bits()
            }
        };
        assert_eq!(tries.function(change), wrong);
    }
}

/// Steps that are one more or less and a settling that is turned round, of each function, and both of them after a refusal.
fn wrong_steps<T: Width>(tries: &Tries<T>) {
    let changes: [&dyn Fn(&mut Told); 3] =
        [&|told| told.steps += 1, &|told| told.steps = told.steps.wrapping_sub(1), &|told| {
            told.settled = !told.settled
        }];
    for change in changes {
        for (wrong, _) in FUNCTIONS {
            let of_function = |call: &Call<T>, _: &mut Lent<T>, told: &mut Told| {
                if call.function == wrong && told.number == 0 {
                    change(told)
                }
            };
            assert_eq!(tries.function(of_function), wrong);
        }
        for number in REFUSALS {
            let (_, fault) = tries.found(|_, _, told| {
                if told.number == number {
                    change(told)
                }
            });
            assert!(fault.contains(&format!("number: {number},")), "{fault}");
        }
    }
    // What was counted before the refusal, in a logarithm's first roots, in the first logarithm, or in a root whose system is refused.
    for wrong in [Logm, FrechetLogm, FrechetSqrtmSylvester, Powm] {
        let change = |call: &Call<T>, _: &mut Lent<T>, told: &mut Told| {
            if call.function == wrong && told.number == 13 {
                told.steps = steps(&repeated(call, None).iterations)
            }
        };
        assert_eq!(tries.function(change), wrong);
    }
}

/// The smallest pivot of a call's matrix.
fn alone<T: Width>(call: &Call<T>) -> Vec<T> {
    let factors = Lu::compute(call.rows, call.rows, &call.matrix).map(|lu| lu.factors());
    factors.map_or(Vec::new(), |factors| vec![smallest_pivot(call.rows, &factors)])
}

/// Reports of lu_compute: without one column's pivot, without magnitudes, with a NaN that wins, and the largest. After a NaN all pivots are
/// NaNs, so that a search that ends there gives the same.
fn wrong_pivots<T: Width>(tries: &Tries<T>) {
    let found = |chosen: &dyn Fn(&[T]) -> T| {
        let change = |call: &Call<T>, lent: &mut Lent<T>, told: &mut Told| {
            if call.function == LuCompute && told.number == 0 && call.rows > 0 {
                let factors = lent.outputs[0].lent();
                let pivots: Vec<T> = (0..call.rows).map(|k| T::of_bits(factors[k * call.rows + k].into())).collect();
                told.smallest = chosen(&pivots).wide().to_bits()
            }
        };
        assert_eq!(tries.function(change), LuCompute);
    };
    let least = |numbers: &[T]| numbers.iter().fold(T::infinity(), |least, x| if *x < least { *x } else { least });
    let magnitudes = |pivots: &[T]| pivots.iter().map(|x| x.magnitude()).collect::<Vec<T>>();
    found(&|pivots| least(&magnitudes(&pivots[1..])));
    found(&|pivots| least(&magnitudes(&pivots[..pivots.len() - 1])));
    found(&|pivots| least(pivots));
    found(&|pivots| pivots.iter().copied().find(|x| x.is_nan()).unwrap_or(least(&magnitudes(pivots))));
    found(&|pivots| magnitudes(pivots).iter().fold(T::zero(), |most, x| if *x > most { *x } else { most }));
}

/// The run of a call that is done; of another none.
fn run_of<T: Width>(call: &Call<T>) -> Option<Run<T>> {
    match answer(call) {
        Outcome::Done(done) => Some(repeated(call, Some(&done.outputs))),
        _ => None,
    }
}

/// The run of frechet_logm's first logarithm.
fn first_logarithm<T: Width>(call: &Call<T>) -> Run<T> {
    run_of(&Call::coded(Logm, call.rows, &call.matrix, &[], T::zero())).expect("the first logarithm is done")
}

/// How many of its factorings frechet_logm makes for the first logarithm.
fn of_first_logarithm<T: Width>(call: &Call<T>) -> usize {
    first_logarithm(call).factorings.len()
}

/// Which smallest pivots a call reports on, of those of its factorings.
type Chosen<'a, T> = &'a dyn Fn(&Call<T>, Vec<T>) -> Vec<T>;

/// Reports of some of a function's factorings only, or of one that it does not make.
fn wrong_factorings<T: Width>(tries: &Tries<T>) {
    let found = |wrong: Function, chosen: Chosen<T>| {
        let change = |call: &Call<T>, _: &mut Lent<T>, told: &mut Told| {
            if call.function == wrong
                && let Some(run) = run_of(call)
            {
                told.smallest = smallest(&chosen(call, run.factorings)).to_bits()
            }
        };
        assert_eq!(tries.function(change), wrong);
    };
    let places = |all: Vec<T>, is_kept: &dyn Fn(usize) -> bool| -> Vec<T> {
        all.into_iter().enumerate().filter(|(k, _)| is_kept(*k)).map(|(_, x)| x).collect()
    };
    for several in [Logm, Sqrtm, FrechetLogm, FrechetSqrtm, FrechetSqrtmSylvester, Powm] {
        found(several, &|_, all| places(all, &|k| k == 0));
        found(several, &|_, all| all.last().copied().into_iter().collect());
        found(several, &|_, all| places(all, &|k| k > 0));
    }
    // Those of y alone, and those of z.
    found(Sqrtm, &|_, all| places(all, &|k| k % 2 == 1));
    found(Sqrtm, &|_, all| places(all, &|k| k % 2 == 0));
    // One logarithm alone; the root without the system of its derivative; the logarithm without the exponential, and the other way round.
    found(FrechetLogm, &|call, all| all[..of_first_logarithm(call)].to_vec());
    found(FrechetLogm, &|call, all| all[of_first_logarithm(call)..].to_vec());
    for last in [FrechetSqrtm, FrechetSqrtmSylvester, Powm] {
        found(last, &|_, all| all[..all.len().saturating_sub(1)].to_vec());
    }
    // None, and one that is not made, of the matrix.
    for one in [Expm, FrechetExpm, CondExpm, LuCompute] {
        found(one, &|_, _| Vec::new());
    }
    for none in [Cosm, Sinm, Powm, LuSolve, LuDeterminant] {
        found(none, &|call, all| if all.is_empty() { alone(call) } else { all });
    }
}

/// Iterations of one part that are taken otherwise.
fn each(part: Part, change: impl Fn(Iteration) -> Iteration, all: &[Iteration]) -> Vec<Iteration> {
    all.iter().map(|x| if x.part == part { change(*x) } else { *x }).collect()
}

/// The step that meets the test is not counted.
fn last_left_out(x: Iteration) -> Iteration {
    Iteration { steps: x.steps - usize::from(x.settled), ..x }
}

/// An iteration that runs out is taken for settled; of the roots of a logarithm, what they leave is not asked about.
fn always_settled(x: Iteration) -> Iteration {
    Iteration { settled: true, ..x }
}

/// An iteration that settles in the hundredth pass is taken for one that runs out.
fn hundredth_unsettled(x: Iteration) -> Iteration {
    Iteration { settled: x.settled && x.steps < 100, ..x }
}

fn uncounted(x: Iteration) -> Iteration {
    Iteration { steps: 0, ..x }
}

/// Terms are counted from term 3 on.
fn from_third_term(x: Iteration) -> Iteration {
    Iteration { steps: x.steps - 1, ..x }
}

/// The first term is counted, too.
fn from_first_term(x: Iteration) -> Iteration {
    Iteration { steps: x.steps + 1, ..x }
}

/// How a call takes the iterations of its run.
type Counted<'a, T> = &'a dyn Fn(&Call<T>, &[Iteration]) -> Vec<Iteration>;

/// A stand-in for a function that reports on its iterations in this way is found.
#[track_caller]
fn found_by_iterations<T: Width>(tries: &Tries<T>, wrong: Function, counted: Counted<T>) {
    let change = |call: &Call<T>, _: &mut Lent<T>, told: &mut Told| {
        if call.function == wrong
            && let Some(run) = run_of(call)
        {
            let iterations = counted(call, &run.iterations);
            (told.steps, told.settled) = (steps(&iterations), settled(&iterations));
        }
    };
    assert_eq!(tries.function(change), wrong);
}

/// Reports of roots' and logarithms' iterations that are counted otherwise, or are settled otherwise.
fn wrong_iterations<T: Width>(tries: &Tries<T>) {
    let found = |wrong: Function, counted: Counted<T>| found_by_iterations(tries, wrong, counted);
    for root in [Sqrtm, FrechetSqrtm, FrechetSqrtmSylvester] {
        found(root, &|_, all| each(Root, last_left_out, all));
        found(root, &|_, all| each(Root, always_settled, all));
    }
    for logarithm in [Logm, FrechetLogm, Powm] {
        for part in [Newton, Series] {
            found(logarithm, &|_, all| each(part, last_left_out, all));
            found(logarithm, &|_, all| each(part, uncounted, all));
        }
        found(logarithm, &|_, all| each(Newton, always_settled, all));
        found(logarithm, &|_, all| each(Rooting, always_settled, all));
        found(logarithm, &|_, all| each(Series, from_third_term, all));
        found(logarithm, &|_, all| each(Series, from_first_term, all));
    }
    found(Sqrtm, &|_, all| each(Root, hundredth_unsettled, all));
    found(Logm, &|_, all| each(Newton, hundredth_unsettled, all));
    // Settled where the last root is, whatever the others are.
    for logarithm in [Logm, Powm] {
        found(logarithm, &|_, all| {
            let last = all.iter().rposition(|x| x.part == Newton).unwrap_or(0);
            [each(Newton, always_settled, &all[..last]), all[last..].to_vec()].concat()
        });
    }
    // Without the first root, and without the last.
    let others = |all: &[Iteration], left_out: Option<usize>| {
        all.iter().enumerate().filter(|(k, _)| Some(*k) != left_out).map(|(_, x)| *x).collect::<Vec<Iteration>>()
    };
    found(Logm, &|_, all| others(all, all.iter().position(|x| x.part == Newton)));
    found(Logm, &|_, all| others(all, all.iter().rposition(|x| x.part == Newton)));
    // Where there is no iteration: a step, and not settled.
    for none in [Sqrtm, FrechetSqrtm, FrechetSqrtmSylvester, Powm] {
        for (steps, settled) in [(1, true), (0, false)] {
            let another = [Iteration { part: Root, steps, settled }];
            found(none, &|_, all| if all.is_empty() { another.to_vec() } else { all.to_vec() });
        }
    }
}

/// Reports of frechet_logm on one of its logarithms alone, and one that is settled where either is.
fn wrong_logarithms<T: Width>(tries: &Tries<T>) {
    let found = |counted: Counted<T>| found_by_iterations(tries, FrechetLogm, counted);
    let split = |call: &Call<T>| first_logarithm(call).iterations.len();
    found(&|call, all| all[..split(call)].to_vec());
    found(&|call, all| all[split(call)..].to_vec());
    // The steps are right in these three: one logarithm settles the call, the other, or either.
    let settled_by =
        |all: &[Iteration], is_settled: bool| vec![Iteration { part: Series, steps: steps(all), settled: is_settled }];
    found(&|call, all| settled_by(all, settled(&all[..split(call)])));
    found(&|call, all| settled_by(all, settled(&all[split(call)..])));
    found(&|call, all| settled_by(all, settled(&all[..split(call)]) || settled(&all[split(call)..])));
}

/// A system of order n × n, made of a root of order n.
type System<'a, T> = &'a dyn Fn(usize, &[T]) -> Vec<T>;

/// What a call of frechet_sqrtm_sylvester that is done would give by another system: the derivative and the smallest pivot. Of another call, at order 1 and
/// where LU refuses the system none.
fn by_system<T: Width>(call: &Call<T>, system: System<T>) -> Option<(Vec<T>, f64)> {
    let n = call.rows;
    if call.function != FrechetSqrtmSylvester || n == 1 {
        return None;
    }
    let Outcome::Done(done) = answer(call) else { return None };
    let lu = Lu::compute(n * n, n * n, &system(n, &done.outputs[0])).ok()?;
    let columns = lu.solve(n * n, 1, &transposed(n, &call.companion)).ok()?;
    let mut factorings = repeated(call, Some(&done.outputs)).factorings;
    *factorings.last_mut()? = smallest_pivot(n * n, &lu.factors());
    Some((transposed(n, &columns), smallest(&factorings)))
}

/// The stand-in is found at a call of frechet_sqrtm_sylvester whose root is not symmetric.
#[track_caller]
fn found_at_nonsymmetric<T: Width>(tries: &Tries<T>, change: impl Fn(&Call<T>, &mut Lent<T>, &mut Told)) {
    let (call, _) = tries.found(change);
    assert_eq!(call.function, FrechetSqrtmSylvester);
    let root = oracle::sqrtm(call.rows, call.rows, &call.matrix).expect("the root is not refused");
    let words = |a: &[T]| a.iter().map(|x| word(*x)).collect::<Vec<u64>>();
    assert_ne!(words(&root), words(&transposed(call.rows, &root)));
}

/// Other systems than that of S X + X S: S X + X S', frechet_sqrtm's own; S' X + X S; and S' X + X S', with both terms transposed. The derivative of
/// each is found, and so is its smallest pivot beside the right derivative.
fn wrong_systems<T: Width>(tries: &Tries<T>) {
    let source: System<T> = &|n, s| layout(n, s, s);
    let first: System<T> = &|n, s| layout(n, &transposed(n, s), &transposed(n, s));
    let both: System<T> = &|n, s| layout(n, &transposed(n, s), s);
    for system in [source, first, both] {
        found_at_nonsymmetric(tries, |call, lent, _| {
            if let Some((derivative, _)) = by_system(call, system) {
                put(&mut lent.outputs[1], &derivative)
            }
        });
        found_at_nonsymmetric(tries, |call, _, told| {
            if let Some((_, pivot)) = by_system(call, system) {
                told.smallest = pivot.to_bits()
            }
        });
    }
    // The whole call as frechet_sqrtm, where the system is refused.
    found_at_nonsymmetric(tries, |call, lent, told| {
        if call.function == FrechetSqrtmSylvester && told.number == 13 {
            *told = stand_in(&answer(&Call { function: FrechetSqrtm, ..call.clone() }), call, lent)
        }
    });
}

/// A change of one NaN's sign, payload or kind that is left is found, and so is a number of the workspace that is not cleared, or is.
fn wrong_leavings<T: Width>(tries: &Tries<T>) {
    for bit in [0, T::FRACTION - 1, T::BITS - 1] {
        tries.found(|_, lent, told| {
            if told.number > 0 {
                flip::<T>(&mut lent.outputs[0], 0, bit)
            }
        });
        tries.found(|_, lent, told| {
            if told.number > 11 {
                flip::<T>(&mut lent.outputs[0], 3, bit)
            }
        });
        tries.found(|_, lent, told| {
            if told.number > 0 {
                flip::<T>(&mut lent.outputs[1], 0, bit)
            }
        });
        for at in [0, CLEARED - 1, CLEARED, CLEARED + 40] {
            tries.found(|_, lent, told| {
                if told.number > 11 {
                    flip::<T>(&mut lent.room, at, bit)
                }
            });
            tries.found(|_, lent, told| {
                if told.number == 0 {
                    flip::<T>(&mut lent.room, at, bit)
                }
            });
            tries.found(|_, lent, told| {
                if (1..=11).contains(&told.number) {
                    flip::<T>(&mut lent.room, at, bit)
                }
            });
        }
        let (_, fault) = tries.found(|call, lent, told| {
            if call.function == CondExpm && told.number > 0 {
                flip::<T>(&mut lent.numbers, 2, bit);
            }
        });
        assert!(fault.contains("beside a refusal"), "{fault}");
    }
    let pivots = |lent: &mut Lent<T>| lent.pivots.lent_mut().iter_mut().take(1).for_each(|x| *x ^= 1);
    tries.found(|_, lent, told| {
        if told.number == 0 {
            pivots(lent)
        }
    });
    tries.found(|_, lent, told| {
        if told.number == 14 {
            pivots(lent)
        }
    });
}

fn beside_the_slices<T: Width>(tries: &Tries<T>) {
    let after = |slice: &mut Slice<T::Word>| *slice.after_mut() = T::low(0);
    let beside = |change: &dyn Fn(&mut Lent<T>)| {
        let (_, fault) = tries.found(|_, lent, told| {
            if told.number == 0 {
                change(lent)
            }
        });
        assert!(fault.contains("a place beside a lent slice is changed"), "{fault}");
    };
    beside(&|lent| after(&mut lent.outputs[0]));
    beside(&|lent| after(&mut lent.outputs[1]));
    beside(&|lent| after(&mut lent.room));
    beside(&|lent| after(&mut lent.numbers));
    beside(&|lent| *lent.pivots.after_mut() ^= 1);
}

/// A call outside the compared domain must still be done and clear its workspace.
fn outside_the_compared_domain<T: Width>(tries: &Tries<T>) {
    let near = |call: &Call<T>| match answer(call) {
        Outcome::Done(done) => done.near,
        outcome => matches!(outcome, Outcome::Parted),
    };
    let halving = |call: &Call<T>| call.function.halves() && call.function != Powm;
    for number in [13, 17] {
        let (call, _) = tries.found(|call, _, told| {
            if halving(call) && near(call) {
                told.number = number
            }
        });
        assert!(near(call));
    }
    let change = |call: &Call<T>, lent: &mut Lent<T>, _: &mut Told| {
        if halving(call) && near(call) {
            flip::<T>(&mut lent.room, 0, 0)
        }
    };
    assert!(near(tries.found(change).0));
}

/// The stand-in passes, and each fault is found.
fn harness<T: Width>() {
    let tries = Tries::<T>::new();
    for (t, outcome) in &tries.0 {
        let right = judge(&|call: &Call<T>, lent: &mut Lent<T>| stand_in(outcome, call, lent), t, outcome);
        assert!(right.is_ok(), "{right:?}");
    }
    wrong_numbers(&tries);
    wrong_reports(&tries);
    wrong_smallest(&tries);
    wrong_pivots(&tries);
    wrong_factorings(&tries);
    wrong_steps(&tries);
    wrong_iterations(&tries);
    wrong_logarithms(&tries);
    wrong_systems(&tries);
    wrong_leavings(&tries);
    beside_the_slices(&tries);
    outside_the_compared_domain(&tries);
}

#[test]
fn faults_are_found() {
    harness::<f64>();
}

#[test]
fn faults_are_found_in_f32() {
    harness::<f32>();
}

/// In f32 the number is widened: neither the bits of the f32 number, nor those of the smallest pivot that the f64 call has.
#[test]
fn a_number_of_the_wrong_width_is_found() {
    let tries = Tries::<f32>::new();
    tries.found(|_, _, told| told.smallest = (f64::from_bits(told.smallest) as f32).to_bits().into());
    let (call, _) = tries.found(|call, _, told| {
        if call.function == Expm && told.number == 0 {
            let matrix: Vec<f64> = call.matrix.iter().map(|x| f64::from(*x)).collect();
            let wide = answer(&Call::coded(Expm, call.rows, &matrix, &[], 0.0));
            told.smallest = wide.smallest().unwrap_or(f64::INFINITY).to_bits()
        }
    });
    assert_eq!(call.function, Expm);
    // The steps are those of the f32 tests.
    let (call, _) = tries.found(|call, _, told| {
        if call.function == Logm && told.number == 0 {
            let matrix: Vec<f64> = call.matrix.iter().map(|x| f64::from(*x)).collect();
            let wide = answer(&Call::coded(Logm, call.rows, &matrix, &[], 0.0));
            told.steps = wide.iterated().map_or(0, |(steps, _)| steps)
        }
    });
    assert_eq!(call.function, Logm);
}

/// A run counts every call, and ends at the first that differs.
#[test]
fn a_run_ends_at_the_first_difference() {
    let right = |call: &Call<f32>, lent: &mut Lent<f32>| stand_in(&answer(call), call, lent);
    let tally = run::<f32>(&right, 1, 0..200, |_, _| {}).unwrap_or_else(|d| panic!("{d}"));
    assert_eq!(tally.compared() + tally.left_out(), 200);
    let wrong = |call: &Call<f32>, lent: &mut Lent<f32>| {
        let told = right(call, lent);
        if call.function == Kron { Told { report: [1, 0], ..told } } else { told }
    };
    let d = run::<f32>(&wrong, 1, 0..200, |_, _| {}).err().expect("a difference");
    assert_eq!(d.call.function, Kron);
    assert!(d.to_string().contains("(f32) differs:\nkron "), "{d}");
    assert!((0..d.number).all(|k| trial::<f32>(1, k).call.function != Kron));
}

/// Trials of one seed are the same each time, whichever comes first.
#[test]
fn trials_repeat() {
    let calls = |seed| (0..50).map(|k| format!("{:?}", trial::<f32>(seed, k).call)).collect::<Vec<_>>();
    assert_eq!(calls(3), calls(3));
    assert_ne!(calls(3), calls(4));
}
