//! The exported entries of the port. Their names and signatures stand in include/axis.h and in this package only.

mod codes;

pub use codes::{CODES, Index};

/// Takes a sheet's bytes and a lent output, and reports the bytes written.
pub type Run<'a> = &'a dyn Fn(&[u8], &mut [u8]) -> usize;

/// Takes sections, a lent output and the place of a refusal, and reports the length of the sheet that it wrote, or 0. The refusal is its number and two
/// details, or 0, 0, 0 where the sheet is written.
pub type Write<'a> = &'a dyn Fn(&Sections, &mut [u8], &mut [u64; 3]) -> usize;

/// What a sheet is written from. Nothing here need fit together: the entry asks.
#[derive(Clone, Copy, Debug, Default, PartialEq, Eq)]
pub struct Sections<'a> {
    pub order: usize,
    /// Row by row. Numbers are the bits of f64 numbers.
    pub matrix: &'a [u64],
    /// How many directions there are.
    pub directions: usize,
    /// The numbers of all directions, one direction after the other.
    pub direction: &'a [u64],
    /// How many exponents there are.
    pub exponents: usize,
    pub exponent: &'a [u64],
    /// How many tasks there are.
    pub tasks: usize,
    /// Code, index, code, index.
    pub task: &'a [u8],
}

/// The length of output that a sheet's lines ask for.
pub const ROOM: usize = 35_500;

/// The length of the longest sheet that is accepted, and so of the longest that is written.
pub const SHEET_LENGTH: usize = 4_708;

/// The entries of the static library.
#[derive(Clone, Copy)]
pub struct Port {
    /// Runs a sheet.
    pub run: Run<'static>,
    /// Writes a sheet.
    pub write: Write<'static>,
}

#[cfg(port)]
mod linked {
    use super::Sections;

    // A slice passes as a pointer and then a length, an array as a pointer.
    unsafe extern "C" {
        fn axis_sheet(sheet: *const u8, sheet_length: usize, output: *mut u8, output_length: usize) -> usize;
        fn axis_write(
            order: usize,
            matrix: *const u64,
            matrix_length: usize,
            directions: usize,
            direction: *const u64,
            direction_length: usize,
            exponents: usize,
            exponent: *const u64,
            exponent_length: usize,
            tasks: usize,
            task: *const u8,
            task_length: usize,
            output: *mut u8,
            output_length: usize,
            why: *mut u64,
        ) -> usize;
    }

    pub fn run(sheet: &[u8], output: &mut [u8]) -> usize {
        // SAFETY: the pointers and lengths are those of two slices, which do not overlap since one is borrowed mutably. The entry has no `requires`.
        unsafe { axis_sheet(sheet.as_ptr(), sheet.len(), output.as_mut_ptr(), output.len()) }
    }

    pub fn write(s: &Sections, output: &mut [u8], why: &mut [u64; 3]) -> usize {
        // SAFETY: the pointers and lengths are those of slices and of an array. Those that are written are borrowed mutably, so that nothing overlaps them.
        // The entry has no `requires`.
        unsafe {
            axis_write(
                s.order,
                s.matrix.as_ptr(),
                s.matrix.len(),
                s.directions,
                s.direction.as_ptr(),
                s.direction.len(),
                s.exponents,
                s.exponent.as_ptr(),
                s.exponent.len(),
                s.tasks,
                s.task.as_ptr(),
                s.task.len(),
                output.as_mut_ptr(),
                output.len(),
                why.as_mut_ptr(),
            )
        }
    }
}

/// The entries of the static library that this was built with. build.rs says where the library is looked for; where it is not there, None.
#[cfg(port)]
pub fn port() -> Option<Port> {
    Some(Port { run: &linked::run, write: &linked::write })
}

#[cfg(not(port))]
pub fn port() -> Option<Port> {
    None
}

/// What a program says where the library was not there when it was built.
pub const ABSENT: &str =
    "built without the port's static library; make it with `tools/static-libraries sheet` and build again";
