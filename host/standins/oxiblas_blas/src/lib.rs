//! Stand-in for the crate oxiblas-blas: names used by the source's blocked LU, which nobody here calls.

pub mod level3 {
    pub mod gemm_kernel {
        /// No type implements it, so the blocked LU cannot be called.
        pub trait GemmKernel {}
    }

    pub mod gemm {
        use oxiblas_matrix::{MatMut, MatRef};

        pub fn gemm<T>(_alpha: T, _a: MatRef<'_, T>, _b: MatRef<'_, T>, _beta: T, _c: MatMut<'_, T>) {
            unimplemented!()
        }
    }

    pub mod trsm {
        use oxiblas_matrix::{MatMut, MatRef};

        pub enum Side {
            Left,
        }
        pub enum Uplo {
            Lower,
        }
        pub enum Trans {
            NoTrans,
        }
        pub enum Diag {
            Unit,
        }

        pub fn trsm_in_place<T>(
            _side: Side,
            _uplo: Uplo,
            _trans: Trans,
            _diag: Diag,
            _a: MatRef<'_, T>,
            _b: MatMut<'_, T>,
        ) {
            unimplemented!()
        }
    }
}
