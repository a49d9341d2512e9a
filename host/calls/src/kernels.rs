//! Two steps inside the port's calls, as crates/host_kernels (f64) and crates/host_kernels32 (f32) of the repository export them, to be timed. Names and
//! signatures stand there and here; nothing compares them.

use crate::entries::Port;

/// What a program says where a library was not there when it was built.
pub const ABSENT: &str =
    "built without the port's steps; make them with `tools/static-libraries host_kernels host_kernels32`";

/// The steps.
#[derive(Clone, Copy)]
pub struct Steps<T> {
    /// The 1-norm of the matrix of this order, at most 16, that a workspace begins with.
    pub norm: fn(&[T], usize) -> T,
    /// The row of the pivot in a column of a matrix of order 64.
    pub find_pivot: fn(&[T], usize) -> usize,
}

/// A width at which the port has steps.
pub trait Kernels: Port {
    /// The port's steps. build.rs says where the library is looked for; where it is not there, None.
    fn steps() -> Option<Steps<Self>>;
}

/// The exported steps of one width, whose names end with the suffix.
macro_rules! linked {
    ($configuration:ident, $t:ident, $suffix:literal) => {
        impl Kernels for $t {
            #[cfg($configuration)]
            fn steps() -> Option<Steps<$t>> {
                // A slice passes as a pointer and then a length.
                unsafe extern "C" {
                    #[link_name = concat!("kernel_norm", $suffix)]
                    fn norm(w: *const $t, wl: usize, n: usize) -> $t;
                    #[link_name = concat!("kernel_find_pivot", $suffix)]
                    fn find_pivot(m: *const $t, ml: usize, k: usize) -> usize;
                }
                // SAFETY: the pointers and lengths are those of slices. The steps have no `requires`.
                Some(Steps {
                    norm: |w, n| unsafe { norm(w.as_ptr(), w.len(), n) },
                    find_pivot: |m, k| unsafe { find_pivot(m.as_ptr(), m.len(), k) },
                })
            }

            #[cfg(not($configuration))]
            fn steps() -> Option<Steps<$t>> {
                None
            }
        }
    };
}

linked!(kernels, f64, "");
linked!(kernels32, f32, "32");
