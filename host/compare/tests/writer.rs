//! The writer's harness, tried on a stand-in for the writer that does as expected, and on stand-ins with one fault each.

use compare::writer::check::check;
use compare::writer::expected::{
    Byte, Outcome, Refused, Slice, bytes, counts, indices, length, lengths, ranges, written,
};
use compare::writer::given::{given, shear};
use compare::writer::make::trial;
use compare::writer::run::{Difference, run};
use entry::{CODES, Index, SHEET_LENGTH, Sections, Write};
use vectors::call::{FUNCTIONS, Function};

/// Writes an outcome as the entry must.
fn put(outcome: Outcome, output: &mut [u8], why: &mut [u64; 3]) -> usize {
    *why = outcome.as_ref().map_or_else(|refused| refused.why(), |_| [0, 0, 0]);
    let bytes = outcome.unwrap_or_default();
    output[..bytes.len()].copy_from_slice(&bytes);
    bytes.len()
}

fn stand_in(s: &Sections, output: &mut [u8], why: &mut [u64; 3]) -> usize {
    put(written(s, output.len()), output, why)
}

fn first_difference(write: Write) -> Difference {
    *run(write, 1, 0..2000, |_, _| {}).err().expect("a difference")
}

/// A stand-in with another outcome.
fn changed(change: impl Fn(&Sections, usize) -> Outcome) -> Difference {
    first_difference(&|s, output, why| put(change(s, output.len()), output, why))
}

/// No difference, and every kind of refusal occurs.
#[test]
fn a_right_writer_passes() {
    let tally = run(&stand_in, 1, 0..2000, |_, _| {}).unwrap_or_else(|d| panic!("{d}"));
    println!("{tally}");
    assert_eq!(tally.written + tally.refused(), 2000, "{tally}");
    assert!(tally.written > 500 && tally.again > 1000, "{tally}");
    assert!(tally.ranges.iter().chain(&tally.lengths).all(|count| *count > 10), "{tally}");
}

/// Every code, every index, every order and count, and NaNs of both signs, quiet and signalling, are written.
#[test]
fn what_is_written_is_varied() {
    let good: Vec<_> = (0..2000).map(|k| trial(1, k)).filter(|t| written(&t.sections.lent(), t.room).is_ok()).collect();
    let numbers = || good.iter().flat_map(|t| t.sections.matrix.iter().chain(&t.sections.exponent));
    let kinds = [0x7ff0, 0x7ff8, 0xfff0, 0xfff8];
    assert!(kinds.iter().all(|kind| numbers().any(|x| x >> 48 == *kind && x << 16 != 0)));
    let subnormal = |x: &u64| x << 1 >> 53 == 0 && x << 1 != 0;
    assert!(numbers().any(subnormal) && numbers().any(|x| *x == 0x7ff << 52) && numbers().any(|x| *x == 1 << 63));
    assert!((1..=8).all(|n| good.iter().any(|t| t.sections.order == n)));
    assert!((0..=8).all(|d| good.iter().any(|t| t.sections.directions == d)));
    assert!((0..=8).all(|e| good.iter().any(|t| t.sections.exponents == e)));
    assert!((1..=16).all(|n| good.iter().any(|t| t.sections.tasks == n)));
    let tasks = || good.iter().flat_map(|t| t.sections.task.as_chunks::<2>().0);
    for (code, (_, index)) in CODES.iter().enumerate() {
        let indices = if *index == Index::Zero { 1 } else { 8 };
        assert!((0..indices).all(|k| tasks().any(|task| *task == [code as u8, k])), "code {code}");
    }
}

/// Trials of one seed are the same each time.
#[test]
fn trials_repeat() {
    let made = |seed| (0..50).map(|k| trial(seed, k).sections).collect::<Vec<_>>();
    assert_eq!(made(3), made(3));
    assert_ne!(made(3), made(4));
}

/// The calls that are written out, with the lengths and details that are written there.
#[test]
fn the_given_calls() {
    for (name, sections, room, wanted) in given() {
        let found = written(&sections.lent(), room);
        assert_eq!(found.as_ref().map(Vec::len).map_err(|refused| refused.why()), wanted, "{name}");
        check(&stand_in, &sections.lent(), room, &found).unwrap_or_else(|fault| panic!("{name}: {fault}"));
    }
}

/// Document 01's 46 bytes, digit by digit.
#[test]
fn the_46_bytes() {
    let digits = "02\
        000000000000f03f000000000000f03f0000000000000000000000000000f03f\
        00\
        010000000000000840\
        010300";
    let found: String = written(&shear().lent(), 46).unwrap().iter().map(|byte| format!("{byte:02x}")).collect();
    assert_eq!(found, digits);
}

/// A sheet is longest with 8 of everything and 16 tasks.
#[test]
fn the_longest() {
    let longest = Sections { order: 8, directions: 8, exponents: 8, tasks: 16, ..Sections::default() };
    assert_eq!(length(&longest), SHEET_LENGTH);
}

/// The names of the codes and what their indices name.
#[test]
fn codes_are_those_of_vectors() {
    assert_eq!(CODES.len(), vectors::call::CODES);
    for ((name, index), (function, wanted)) in CODES.iter().zip(FUNCTIONS) {
        assert_eq!(*name, wanted);
        assert_eq!(*index == Index::Direction, function.directed(), "{name}");
        assert_eq!(*index == Index::Exponent, function == Function::Powm, "{name}");
    }
}

/// 5 asked before the codes and indices.
#[test]
fn lengths_asked_first_are_found() {
    let d = changed(|s, room| {
        counts(s)?;
        lengths(s, room)?;
        written(s, room)
    });
    assert!(d.fault.contains("wanted 0, why [16,") && d.fault.contains("given  0, why [5,"), "{d}");
}

/// The output asked before A, and tasks before exponents.
#[test]
fn lengths_in_another_order_are_found() {
    changed(|s, room| {
        ranges(s)?;
        let short = Refused::Length(Slice::Output, room, length(s));
        if room < length(s) { Err(short) } else { written(s, room) }
    });
    changed(|s, room| match written(s, room) {
        Err(Refused::Length(Slice::Exponents, ..)) if s.task.len() != 2 * s.tasks => {
            Err(Refused::Length(Slice::Tasks, s.task.len(), 2 * s.tasks))
        }
        outcome => outcome,
    });
}

/// How the tasks are asked: how many of their bytes, how many codes there are, and the indices of a code, which is that of task k.
struct Questions {
    asked: fn(&Sections) -> usize,
    codes: usize,
    indices: fn(&Sections, u8, usize) -> usize,
}

/// As the entry must ask. A code that is none has no index, and is refused before.
const RIGHT: Questions = Questions {
    asked: |s| s.task.len().min(2 * s.tasks),
    codes: CODES.len(),
    indices: |s, code, _| if usize::from(code) < CODES.len() { indices(s, code) } else { 0 },
};

impl Questions {
    /// Every code and index out of range. The index of such a code is not asked.
    fn refused(&self, s: &Sections, first: usize) -> Vec<Refused> {
        let mut refused = Vec::new();
        for (k, task) in s.task[..(self.asked)(s)].chunks(2).enumerate() {
            match *task {
                [code, ..] if usize::from(code) >= self.codes => {
                    refused.push(Refused::Range(Byte::Code, first + 2 * k));
                }
                [code, index] if usize::from(index) >= (self.indices)(s, code, k) => {
                    refused.push(Refused::Range(Byte::Index, first + 2 * k + 1));
                }
                _ => {}
            }
        }
        refused
    }

    /// A writer that asks so, and names one of those that are out of range.
    fn writer(
        self,
        named: impl Fn(&Sections, usize, &[Refused]) -> Option<Refused>,
    ) -> impl Fn(&Sections, usize) -> Outcome {
        move |s, room| {
            let first = counts(s)?;
            named(s, first, &self.refused(s, first)).map_or(Ok(()), Err)?;
            lengths(s, room)?;
            Ok(bytes(s))
        }
    }

    /// The difference of a writer that asks so, and names the leftmost.
    fn difference(self) -> Difference {
        changed(self.writer(|_, _, refused| refused.first().copied()))
    }
}

/// The questions of the stand-ins below are right but for their fault.
#[test]
fn right_questions_pass() {
    let right = RIGHT.writer(|_, _, refused| refused.first().copied());
    let write: Write = &|s, output, why| put(right(s, output.len()), output, why);
    run(write, 1, 0..2000, |_, _| {}).unwrap_or_else(|d| panic!("{d}"));
}

#[test]
fn the_last_instead_of_the_leftmost_is_found() {
    let d = changed(RIGHT.writer(|_, _, refused| refused.last().copied()));
    assert!(d.sections.tasks > 1, "{d}");
}

/// The counts asked from the right: the tasks' count first, its position from the counts as they are.
#[test]
fn the_rightmost_count_is_found() {
    changed(|s, room| {
        let square = s.order.wrapping_mul(s.order);
        let numbers = square.wrapping_mul(s.directions.wrapping_add(1)).wrapping_add(s.exponents);
        let position = numbers.wrapping_mul(8).wrapping_add(3);
        if (1..17).contains(&s.tasks) { written(s, room) } else { Err(Refused::Range(Byte::Tasks, position)) }
    });
}

#[test]
fn an_index_asked_by_the_code_before_is_found() {
    let before =
        |s: &Sections, code: u8, k: usize| (RIGHT.indices)(s, if k == 0 { code } else { s.task[2 * k - 2] }, k);
    let d = Questions { indices: before, ..RIGHT }.difference();
    assert!(d.sections.tasks > 1, "{d}");
}

#[test]
fn tasks_asked_past_the_count_are_found() {
    let d = Questions { asked: |s| s.task.len(), ..RIGHT }.difference();
    assert!(d.sections.task.len() > 2 * d.sections.tasks, "{d}");
}

/// Tasks that are not asked where their slice is short, and a last code that is not asked without its index.
#[test]
fn tasks_that_are_not_asked_are_found() {
    let none = |s: &Sections| if s.task.len() < 2 * s.tasks { 0 } else { 2 * s.tasks };
    let d = Questions { asked: none, ..RIGHT }.difference();
    assert!(d.sections.task.len() < 2 * d.sections.tasks, "{d}");
    let d = Questions { asked: |s| (RIGHT.asked)(s) / 2 * 2, ..RIGHT }.difference();
    assert!(d.sections.task.len() % 2 == 1, "{d}");
}

/// The index named, where both it and its code are bad.
#[test]
fn an_index_asked_of_a_bad_code_is_found() {
    let d = changed(RIGHT.writer(|s, first, refused| match refused.first() {
        Some(Refused::Range(Byte::Code, at)) if s.task.get(at - first + 1).is_some_and(|index| *index > 0) => {
            Some(Refused::Range(Byte::Index, at + 1))
        }
        leftmost => leftmost.copied(),
    }));
    assert!(d.fault.contains("wanted 0, why [16,"), "{d}");
}

/// Code 10 refused, code 11 taken, an index one past the last taken, and index 0 where there is nothing to name.
#[test]
fn limits_of_tasks_off_by_one_are_found() {
    Questions { codes: 10, ..RIGHT }.difference();
    Questions { codes: 12, indices: |s, code, k| if code == 11 { 1 } else { (RIGHT.indices)(s, code, k) }, ..RIGHT }
        .difference();
    Questions { indices: |s, code, k| (RIGHT.indices)(s, code, k) + 1, ..RIGHT }.difference();
    Questions { indices: |s, code, k| (RIGHT.indices)(s, code, k).max(1), ..RIGHT }.difference();
}

/// An order or a count beside its range that is not refused, and one at the end of its range that is.
#[test]
fn limits_of_counts_off_by_one_are_found() {
    let [order, directions, exponents, tasks] = [Byte::Order, Byte::Directions, Byte::Exponents, Byte::Tasks];
    for (byte, count) in [(order, 0), (order, 9), (directions, 9), (exponents, 9), (tasks, 0), (tasks, 17)] {
        let d = changed(|s, room| match written(s, room) {
            Err(Refused::Range(refused, _)) if refused == byte && counted(s, byte) == count => Ok(vec![]),
            outcome => outcome,
        });
        assert_eq!(counted(&d.sections.lent(), byte), count, "{d}");
    }
    let ends = [[(order, 1), (order, 8)], [(directions, 0), (directions, 8)], [(exponents, 0), (exponents, 8)]];
    for (byte, count) in ends.into_iter().flatten().chain([(tasks, 1), (tasks, 16)]) {
        let d = changed(|s, room| match written(s, room) {
            Ok(_) if counted(s, byte) == count => Err(Refused::Range(byte, 0)),
            outcome => outcome,
        });
        assert_eq!(counted(&d.sections.lent(), byte), count, "{d}");
    }
}

fn counted(s: &Sections, byte: Byte) -> usize {
    match byte {
        Byte::Order => s.order,
        Byte::Directions => s.directions,
        Byte::Exponents => s.exponents,
        _ => s.tasks,
    }
}

/// A count of which only the lowest 8 or 32 bits are looked at, so that 256 is taken as 0.
#[test]
fn a_count_taken_by_its_low_bits_is_found() {
    for bits in [8, 16, 32] {
        let low = |count: usize| count & ((1 << bits) - 1);
        let order = changed(|s, room| written(&Sections { order: low(s.order), ..*s }, room));
        let directions = changed(|s, room| written(&Sections { directions: low(s.directions), ..*s }, room));
        let exponents = changed(|s, room| written(&Sections { exponents: low(s.exponents), ..*s }, room));
        let tasks = changed(|s, room| written(&Sections { tasks: low(s.tasks), ..*s }, room));
        for d in [order, directions, exponents, tasks] {
            assert!(d.fault.contains("wanted 0, why [16,"), "{d}");
        }
    }
}

/// Positions worked out from the lengths of slices, and not from the counts.
#[test]
fn a_position_by_lengths_is_found() {
    let d = changed(|s, room| match written(s, room) {
        Err(Refused::Range(Byte::Directions, _)) => Err(Refused::Range(Byte::Directions, 1 + 8 * s.matrix.len())),
        outcome => outcome,
    });
    assert_ne!(d.sections.matrix.len(), d.sections.order * d.sections.order, "{d}");
}

/// A stand-in whose numbers are changed where they are written.
fn numbers_changed(change: impl Fn(u64) -> u64) -> Difference {
    changed(|s, room| {
        let changed = |numbers: &[u64]| numbers.iter().map(|x| change(*x)).collect::<Vec<_>>();
        let (matrix, direction, exponent) = (changed(s.matrix), changed(s.direction), changed(s.exponent));
        written(&Sections { matrix: &matrix, direction: &direction, exponent: &exponent, ..*s }, room)
    })
}

fn nan(x: u64) -> bool {
    x << 1 > 0x7ff << 53
}

/// The high byte first, NaNs made quiet, without their signs, with one payload, and a zero without its sign.
#[test]
fn changed_numbers_are_found() {
    let high_first = numbers_changed(u64::swap_bytes);
    let quiet = numbers_changed(|x| if nan(x) { x | 1 << 51 } else { x });
    let unsigned = numbers_changed(|x| if nan(x) { x & !(1 << 63) } else { x });
    let one = numbers_changed(|x| if nan(x) { 0x7ff8 << 48 } else { x });
    let zero = numbers_changed(|x| if x == 1 << 63 { 0 } else { x });
    for d in [high_first, quiet, unsigned, one, zero] {
        assert!(d.fault.contains("of the output"), "{d}");
    }
}

/// Tasks that will be refused, and numbers that are not finite, are written all the same.
#[test]
fn a_refusal_of_a_number_is_found() {
    let finite = |numbers: &[u64]| numbers.iter().all(|x| (*x << 1) >> 53 < 0x7ff);
    let d = first_difference(&|s, output, why| {
        if ranges(s).is_ok() && !finite(s.matrix) {
            *why = [6, 0, 0];
            return 0;
        }
        stand_in(s, output, why)
    });
    assert!(d.fault.contains("given  0, why [6, 0, 0]"), "{d}");
}

/// A byte written on a refusal, also one that has the value that stood there in one of the two calls, and the whole sheet.
#[test]
fn a_byte_written_on_a_refusal_is_found() {
    for byte in [0, 64] {
        let d = first_difference(&|s, output, why| {
            let reported = stand_in(s, output, why);
            if reported == 0 {
                output.iter_mut().take(1).for_each(|first| *first = byte);
            }
            reported
        });
        assert!(d.fault.contains("byte 0 of the output"), "{d}");
    }
    first_difference(&|s, output, why| {
        let reported = stand_in(s, output, why);
        if why[0] == 5 {
            bytes(s).iter().zip(output).for_each(|(byte, place)| *place = *byte);
        }
        reported
    });
}

#[test]
fn a_byte_past_the_length_is_found() {
    let d = first_difference(&|s, output, why| {
        let reported = stand_in(s, output, why);
        if let Some(byte) = output.get_mut(reported).filter(|_| reported > 0) {
            *byte = 0;
        }
        reported
    });
    assert!(d.fault.contains("of the output"), "{d}");
    first_difference(&|s, output, why| {
        let reported = stand_in(s, output, why);
        if let Some(byte) = output.last_mut().filter(|_| reported > 0) {
            *byte = 0;
        }
        reported
    });
}

/// An output of the exact length, or a longer one, refused; and one that is a byte short taken.
#[test]
fn a_wrong_room_is_found() {
    let longer = |s: &Sections, room: usize| Err(Refused::Length(Slice::Output, room, length(s)));
    let exact = changed(|s, room| match written(s, room) {
        Ok(bytes) if bytes.len() == room => longer(s, room),
        outcome => outcome,
    });
    assert_eq!(exact.room, length(&exact.sections.lent()), "{exact}");
    let long = changed(|s, room| match written(s, room) {
        Ok(bytes) if bytes.len() < room => longer(s, room),
        outcome => outcome,
    });
    assert!(long.room > length(&long.sections.lent()), "{long}");
    let short = changed(|s, room| match written(s, room) {
        Err(Refused::Length(Slice::Output, found, wanted)) if found + 1 == wanted => Ok(bytes(s)[..room].to_vec()),
        outcome => outcome,
    });
    assert_eq!(short.room + 1, length(&short.sections.lent()), "{short}");
}

/// A refusal with its details exchanged, without one, or by another number; and a wrong length.
#[test]
fn a_wrong_report_is_found() {
    let reported = |change: &dyn Fn(&mut [u64; 3])| {
        first_difference(&|s, output, why| {
            let reported = stand_in(s, output, why);
            change(why);
            reported
        })
    };
    reported(&|why| why.swap(1, 2));
    reported(&|why| {
        if why[0] == 5 {
            why.swap(1, 2)
        }
    });
    reported(&|why| why[2] = 0);
    reported(&|why| {
        if why[0] == 16 {
            why[0] = 15
        }
    });
    reported(&|why| {
        if why[0] == 16 {
            why[2] = why[1]
        }
    });
    first_difference(&|s, output, why| stand_in(s, output, why) + 1);
    first_difference(&|s, output, why| stand_in(s, output, why).saturating_sub(1));
    first_difference(&|s, output, why| if stand_in(s, output, why) > 0 { output.len() } else { 0 });
    first_difference(&|s, output, why| stand_in(s, output, why).max(1));
}

/// Each of the three numbers left as it was lent, where the sheet is written and where it is refused.
#[test]
fn a_number_that_is_not_written_is_found() {
    for k in 0..3 {
        for done in [true, false] {
            first_difference(&|s, output, why| {
                let lent = why[k];
                let reported = stand_in(s, output, why);
                if (reported > 0) == done {
                    why[k] = lent;
                }
                reported
            });
        }
    }
}

/// A writer that is wrong for the sections of the generator's sheets alone.
#[test]
fn a_sheet_that_is_not_written_again_is_found() {
    let made: Vec<_> = (0..50).map(|k| trial(1, k).sections).collect();
    let d = first_difference(&|s, output, why| {
        let reported = stand_in(s, output, why);
        if !made.iter().any(|known| known.lent() == *s) {
            output[0] ^= 1;
        }
        reported
    });
    assert!(d.again && d.number < 50 && d.to_string().contains("written again"), "{d}");
}
