use crate::{Failure, ffi};

/// How the time partial is probed.
#[derive(Clone, Copy, Debug, PartialEq)]
pub struct TimeDifferencePolicy {
    pub scale: f64,
    pub relative_step: f64,
    pub maximum_fraction: f64,
    pub bounds: Option<(f64, f64)>,
}

impl Default for TimeDifferencePolicy {
    fn default() -> Self {
        let policy = ffi::wiqhano_default_policy();
        let bounds = policy.bounds;
        Self {
            scale: policy.scale,
            relative_step: policy.relative_step,
            maximum_fraction: policy.maximum_fraction,
            bounds: bounds.present.then_some((bounds.lo, bounds.hi)),
        }
    }
}

impl From<TimeDifferencePolicy> for ffi::TimeDifferencePolicy {
    fn from(policy: TimeDifferencePolicy) -> Self {
        let (lo, hi) = policy.bounds.unwrap_or_default();
        Self {
            scale: policy.scale,
            relative_step: policy.relative_step,
            maximum_fraction: policy.maximum_fraction,
            bounds: ffi::Bounds {
                present: policy.bounds.is_some(),
                lo,
                hi,
            },
        }
    }
}

impl TimeDifferencePolicy {
    /// The times at which to probe for a step; the second may be absent.
    #[inline]
    pub fn probes(self, time: f64, step: f64) -> Result<(f64, Option<f64>), Failure> {
        let (lo, hi) = self.bounds.unwrap_or_default();
        let times = ffi::wiqhano_probes(
            self.scale,
            self.relative_step,
            self.maximum_fraction,
            self.bounds.is_some(),
            lo,
            hi,
            time,
            step,
        );
        match times.number {
            0 => Ok((times.first, (times.count == 2).then_some(times.second))),
            number => Err(Failure::told(number)),
        }
    }
}

/// The time partial from one probed value at the distance d1, or from two, the second at d2.
#[inline]
pub fn partial(base: f64, first: f64, second: Option<f64>, d1: f64, d2: Option<f64>) -> f64 {
    match (second, d2) {
        (Some(second), Some(d2)) => ffi::wiqhano_partial(base, first, second, d1, d2, true),
        _ => ffi::wiqhano_partial(base, first, 0.0, d1, 0.0, false),
    }
}
