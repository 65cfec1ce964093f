use crate::Failure;
use crate::ffi::{self, Answer};

impl Answer {
    #[inline]
    pub(crate) fn value(self) -> Result<f64, Failure> {
        match self.number {
            0 => Ok(self.value),
            number => Err(Failure::told(number)),
        }
    }
}

/// The time that a step reaches.
#[inline]
pub fn checked_time(time: f64, step: f64) -> Result<f64, Failure> {
    ffi::wiqhano_checked_time(time, step).value()
}

/// A signed proposal cut at a finite endpoint.
#[inline]
pub fn endpoint_step(time: f64, endpoint: f64, proposal: f64) -> Result<f64, Failure> {
    ffi::wiqhano_endpoint_step(time, endpoint, proposal).value()
}

/// A first step from a state, its derivative and positive scales, for a direction of 1 or -1.
pub fn initial_step(
    state: &[f64],
    derivative: &[f64],
    scales: &[f64],
    direction: f64,
    maximum: f64,
) -> Result<f64, Failure> {
    // SAFETY: the slices' own pointers and lengths
    let answer = unsafe {
        ffi::wiqhano_initial_step(
            state.as_ptr(),
            state.len(),
            derivative.as_ptr(),
            derivative.len(),
            scales.as_ptr(),
            scales.len(),
            direction,
            maximum,
        )
    };
    answer.value()
}

/// The error norm of a step.
#[inline]
pub fn scaled_error_norm(
    state: &[f64],
    candidate: &[f64],
    error: &[f64],
    absolute: f64,
    relative: f64,
) -> Result<f64, Failure> {
    // SAFETY: the slices' own pointers and lengths
    let answer = unsafe {
        ffi::wiqhano_scaled_error_norm(
            state.as_ptr(),
            state.len(),
            candidate.as_ptr(),
            candidate.len(),
            error.as_ptr(),
            error.len(),
            absolute,
            relative,
        )
    };
    answer.value()
}
