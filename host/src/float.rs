//! The float operations that the port makes itself.
use crate::ffi;

#[inline]
pub fn abs(x: f64) -> f64 {
    ffi::wiqhano_abs(x)
}

/// The larger; a NaN loses to a number. Of two zeros, either.
#[inline]
pub fn max(a: f64, b: f64) -> f64 {
    ffi::wiqhano_max(a, b)
}

/// The smaller; a NaN loses to a number. Of two zeros, either.
#[inline]
pub fn min(a: f64, b: f64) -> f64 {
    ffi::wiqhano_min(a, b)
}

/// x cut at the bounds; a NaN stays. It never panics: bounds that are crossed are the caller's.
#[inline]
pub fn clamp(x: f64, lo: f64, hi: f64) -> f64 {
    ffi::wiqhano_clamp(x, lo, hi)
}

#[inline]
pub fn signum(x: f64) -> f64 {
    ffi::wiqhano_signum(x)
}

#[inline]
pub fn is_finite(x: f64) -> bool {
    ffi::wiqhano_is_finite(x)
}

#[inline]
pub fn is_nan(x: f64) -> bool {
    ffi::wiqhano_is_nan(x)
}

/// The double nearest the square root.
#[inline]
pub fn sqrt(x: f64) -> f64 {
    ffi::wiqhano_sqrt(x)
}
