//! The continuous output of a step.
use crate::{Failure, ffi};

/// A step's ends, their states, and the corrections: as many rows as the order says.
#[derive(Clone, Copy, Debug)]
pub struct StiffSegment<'a> {
    pub start_time: f64,
    pub end_time: f64,
    pub start_state: &'a [f64],
    pub end_state: &'a [f64],
    pub corrections: &'a [f64],
    pub order: usize,
}

impl StiffSegment<'_> {
    /// Writes the state at a time; nothing where it is refused.
    #[inline]
    pub fn interpolate(&self, time: f64, output: &mut [f64]) -> Result<(), Failure> {
        // SAFETY: the slices' own pointers and lengths
        Failure::unless_0(unsafe {
            ffi::wiqhano_interpolate(
                self.start_time,
                self.end_time,
                self.start_state.as_ptr(),
                self.start_state.len(),
                self.end_state.as_ptr(),
                self.end_state.len(),
                self.corrections.as_ptr(),
                self.corrections.len(),
                self.order,
                time,
                output.as_mut_ptr(),
                output.len(),
            )
        })
    }
}
