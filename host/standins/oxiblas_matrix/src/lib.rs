//! Stand-in for the crate oxiblas-matrix: a matrix of numbers stored row by row, and borrowed views of it.
//! It stores and reads numbers and computes none.

use bytemuck::Zeroable;
use num_traits::One;
use std::ops::{Index, IndexMut};

#[derive(Clone, Debug)]
pub struct Mat<T> {
    rows: usize,
    columns: usize,
    numbers: Vec<T>,
}

#[derive(Debug)]
pub struct MatRef<'a, T> {
    rows: usize,
    columns: usize,
    numbers: &'a [T],
}

/// Named by the parts of the source that are not called.
#[derive(Debug)]
pub struct MatMut<'a, T> {
    pub numbers: &'a mut [T],
}

impl<T: Copy + Zeroable> Mat<T> {
    pub fn zeros(rows: usize, columns: usize) -> Mat<T> {
        Mat { rows, columns, numbers: vec![T::zeroed(); rows * columns] }
    }
}

impl<T: Copy + Zeroable + One> Mat<T> {
    pub fn eye(n: usize) -> Mat<T> {
        let mut m = Mat::zeros(n, n);
        for i in 0..n {
            m[(i, i)] = T::one();
        }
        m
    }
}

impl<T> Mat<T> {
    #[inline]
    pub fn nrows(&self) -> usize {
        self.rows
    }

    #[inline]
    pub fn ncols(&self) -> usize {
        self.columns
    }

    #[allow(clippy::should_implement_trait)]
    #[inline]
    pub fn as_ref(&self) -> MatRef<'_, T> {
        MatRef { rows: self.rows, columns: self.columns, numbers: &self.numbers }
    }

    #[allow(clippy::should_implement_trait)]
    #[inline]
    pub fn as_mut(&mut self) -> MatMut<'_, T> {
        MatMut { numbers: &mut self.numbers }
    }

    /// The numbers, row by row.
    #[inline]
    pub fn into_numbers(self) -> Vec<T> {
        self.numbers
    }
}

impl<'a, T> MatRef<'a, T> {
    /// A view of numbers given row by row; their count is rows times columns.
    pub fn new(rows: usize, columns: usize, numbers: &'a [T]) -> MatRef<'a, T> {
        assert_eq!(numbers.len(), rows * columns);
        MatRef { rows, columns, numbers }
    }

    #[inline]
    pub fn nrows(&self) -> usize {
        self.rows
    }

    #[inline]
    pub fn ncols(&self) -> usize {
        self.columns
    }

    /// The numbers, row by row.
    #[inline]
    pub fn numbers(&self) -> &'a [T] {
        self.numbers
    }
}

impl<T> Clone for MatRef<'_, T> {
    fn clone(&self) -> Self {
        *self
    }
}

impl<T> Copy for MatRef<'_, T> {}

/// The position of an entry; an index outside the matrix ends the program.
#[inline(always)]
fn place(rows: usize, columns: usize, (i, j): (usize, usize)) -> usize {
    assert!(i < rows && j < columns, "entry ({i}, {j}) of a {rows} by {columns} matrix");
    i * columns + j
}

impl<T> Index<(usize, usize)> for Mat<T> {
    type Output = T;
    #[inline(always)]
    fn index(&self, at: (usize, usize)) -> &T {
        &self.numbers[place(self.rows, self.columns, at)]
    }
}

impl<T> IndexMut<(usize, usize)> for Mat<T> {
    #[inline(always)]
    fn index_mut(&mut self, at: (usize, usize)) -> &mut T {
        &mut self.numbers[place(self.rows, self.columns, at)]
    }
}

impl<T> Index<(usize, usize)> for MatRef<'_, T> {
    type Output = T;
    #[inline(always)]
    fn index(&self, at: (usize, usize)) -> &T {
        &self.numbers[place(self.rows, self.columns, at)]
    }
}
