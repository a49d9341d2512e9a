//! Calls of the writer that are written out, each with what must come: the length, or the number of a refusal and its details.

use super::sections::Owned;

/// A name, sections, the length of the output, and what must come.
pub type Given = (&'static str, Owned, usize, Result<usize, [u64; 3]>);

/// The sections of the 46 bytes at the end of document 01's bench: [[1, 1], [0, 1]] to the power 3. The counts stand at 0, 33, 34 and 43.
pub fn shear() -> Owned {
    let bits = |numbers: &[f64]| numbers.iter().map(|x| x.to_bits()).collect();
    Owned {
        order: 2,
        matrix: bits(&[1.0, 1.0, 0.0, 1.0]),
        exponents: 1,
        exponent: bits(&[3.0]),
        tasks: 1,
        task: vec![3, 0],
        ..Owned::default()
    }
}

fn tasks(tasks: usize, task: &[u8]) -> Owned {
    Owned { tasks, task: task.to_vec(), ..shear() }
}

/// Sections refused by a range.
fn ranges() -> Vec<Given> {
    let no = |at: u64| Err([16, at, 0]);
    vec![
        ("order 9", Owned { order: 9, ..shear() }, 46, no(0)),
        ("order 0", Owned { order: 0, ..shear() }, 46, no(0)),
        ("the largest order", Owned { order: usize::MAX, ..shear() }, 46, no(0)),
        ("9 directions", Owned { directions: 9, ..shear() }, 46, no(33)),
        ("300 directions", Owned { directions: 300, ..shear() }, 46, no(33)),
        ("256 exponents", Owned { exponents: 256, ..shear() }, 46, no(34)),
        ("9 exponents after 2 directions", Owned { directions: 2, exponents: 9, ..shear() }, 46, no(98)),
        ("17 tasks", tasks(17, &[3, 0].repeat(17)), 78, no(43)),
        ("no tasks", tasks(0, &[]), 44, no(43)),
        ("code 11", tasks(1, &[11, 9]), 46, no(44)),
        ("an index that no exponent has", tasks(1, &[3, 1]), 46, no(45)),
        ("an index that is not 0", tasks(1, &[2, 1]), 46, no(45)),
        ("a direction that is not there", tasks(1, &[10, 0]), 46, no(45)),
        ("the second task's code and index", tasks(2, &[3, 0, 255, 255]), 48, no(46)),
        ("a code that is bad without its index", tasks(1, &[11]), 46, no(44)),
        ("a bad code where the slice is short", tasks(16, &[3, 0, 11]), 76, no(46)),
        ("a bad code and a bad slice of A", Owned { matrix: vec![], ..tasks(1, &[11, 0]) }, 0, no(44)),
    ]
}

/// Sections refused by a length, and those that are written.
fn lengths() -> Vec<Given> {
    let no = |found: u64, wanted: u64| Err([5, found, wanted]);
    let cut = |matrix: usize, exponents: usize| Owned {
        matrix: vec![0; matrix],
        exponent: vec![0; exponents],
        ..tasks(1, &[3, 0, 3])
    };
    let longest =
        Owned { order: 8, matrix: vec![u64::MAX; 64], directions: 8, direction: vec![u64::MAX; 512], ..shear() };
    let longest = Owned { exponents: 8, exponent: vec![u64::MAX; 8], tasks: 16, task: [3, 7].repeat(16), ..longest };
    vec![
        ("the 46 bytes", shear(), 46, Ok(46)),
        ("the 46 bytes in 100", shear(), 100, Ok(46)),
        ("one byte short", shear(), 45, no(45, 46)),
        ("no output", shear(), 0, no(0, 46)),
        ("a code without its index", tasks(1, &[3]), 46, no(1, 2)),
        ("no task of one", tasks(1, &[]), 46, no(0, 2)),
        ("a task past the count", tasks(1, &[3, 0, 255, 0]), 48, no(4, 2)),
        ("3 numbers, A first", cut(3, 0), 0, no(3, 4)),
        ("directions before exponents", Owned { direction: vec![0], ..cut(4, 0) }, 0, no(1, 0)),
        ("exponents before tasks", cut(4, 0), 0, no(0, 1)),
        ("tasks before output", cut(4, 1), 0, no(3, 2)),
        ("the longest", longest.clone(), 4708, Ok(4708)),
        ("the longest, one byte short", longest, 4707, no(4707, 4708)),
    ]
}

pub fn given() -> Vec<Given> {
    [ranges(), lengths()].concat()
}
