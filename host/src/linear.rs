//! LU with partial pivoting, and the solve with its factors.
use crate::{Failure, ffi};

/// Factors an n by n matrix, stored by rows, in place.
#[inline]
pub fn factorize(matrix: &mut [f64], pivots: &mut [usize], n: usize) -> Result<(), Failure> {
    // SAFETY: the slices' own pointers and lengths
    Failure::unless_0(unsafe {
        ffi::wiqhano_factorize(
            matrix.as_mut_ptr(),
            matrix.len(),
            pivots.as_mut_ptr(),
            pivots.len(),
            n,
        )
    })
}

/// The same, and entries that are not finite are let in: they make the matrix singular or not.
#[inline]
pub fn factorize_raw(matrix: &mut [f64], pivots: &mut [usize], n: usize) -> Result<(), Failure> {
    // SAFETY: the slices' own pointers and lengths
    Failure::unless_0(unsafe {
        ffi::wiqhano_factorize_raw(
            matrix.as_mut_ptr(),
            matrix.len(),
            pivots.as_mut_ptr(),
            pivots.len(),
            n,
        )
    })
}

/// Solves in place with the factors and pivots that `factorize` left.
#[inline]
pub fn solve(factors: &[f64], pivots: &[usize], rhs: &mut [f64], n: usize) -> Result<(), Failure> {
    // SAFETY: the slices' own pointers and lengths
    Failure::unless_0(unsafe {
        ffi::wiqhano_solve(
            factors.as_ptr(),
            factors.len(),
            pivots.as_ptr(),
            pivots.len(),
            rhs.as_mut_ptr(),
            rhs.len(),
            n,
        )
    })
}

/// A factored matrix, in the original's shape.
#[derive(Clone, Debug, PartialEq)]
pub struct DenseLu {
    dimension: usize,
    factors: Vec<f64>,
    pivots: Vec<usize>,
}

impl DenseLu {
    pub fn factorize(dimension: usize, matrix: &[f64]) -> Result<Self, Failure> {
        let mut factors = matrix.to_vec();
        // a dimension out of range is refused before the pivots are looked at
        let mut pivots = vec![0; dimension.min(64)];
        factorize(&mut factors, &mut pivots, dimension)?;
        Ok(Self {
            dimension,
            factors,
            pivots,
        })
    }

    pub fn solve(&self, right_hand_side: &mut [f64]) -> Result<(), Failure> {
        solve(&self.factors, &self.pivots, right_hand_side, self.dimension)
    }

    pub fn factors(&self) -> &[f64] {
        &self.factors
    }

    pub fn pivots(&self) -> &[usize] {
        &self.pivots
    }
}
