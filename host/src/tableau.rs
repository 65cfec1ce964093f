//! The tableau file.
use crate::{Failure, ffi};

/// What a tableau file holds. a and coupling hold only j < i, row by row.
#[derive(Clone, Debug, PartialEq)]
pub struct Coefficients {
    pub hybrid: bool,
    pub step_doubling: bool,
    pub gamma: f64,
    pub a: Vec<f64>,
    pub coupling: Vec<f64>,
    pub c: Vec<f64>,
    pub d: Vec<f64>,
    pub b: Vec<f64>,
    pub btilde: Option<Vec<f64>>,
}

impl Coefficients {
    /// One stage: gamma = d = b = 1, c = 0.
    pub fn pond() -> Self {
        Self {
            hybrid: false,
            step_doubling: false,
            gamma: 1.0,
            a: vec![],
            coupling: vec![],
            c: vec![0.0],
            d: vec![1.0],
            b: vec![1.0],
            btilde: None,
        }
    }

    /// The tableau file, for as many stages as b has elements. What no file can hold makes bytes
    /// that are no tableau file.
    pub fn file(&self) -> Vec<u8> {
        let stages = self.b.len().min(9) as u32;
        let counts = [
            stages,
            self.hybrid.into(),
            self.step_doubling.into(),
            self.btilde.is_some().into(),
        ];
        let gamma = [self.gamma];
        let parts = [
            &gamma,
            &self.a[..],
            &self.coupling,
            &self.c,
            &self.d,
            &self.b,
        ];
        let mut at = 48;
        let mut offset = |part: &[f64]| {
            let start = at;
            at += 8 * part.len() as u32;
            start
        };
        let offsets = parts.map(&mut offset);
        let btilde = self.btilde.as_deref();
        let last = btilde.map_or(0, &mut offset);
        let numbers = counts.iter().chain(&offsets).chain([&last, &at]);
        let doubles = parts.into_iter().chain(btilde).flatten();
        numbers
            .flat_map(|x| x.to_le_bytes())
            .chain(doubles.flat_map(|x| x.to_le_bytes()))
            .collect()
    }
}

/// Whether the bytes are a tableau file.
#[inline]
pub fn check(file: &[u8]) -> Result<(), Failure> {
    // SAFETY: the slice's own pointer and length
    Failure::unless_0(unsafe { ffi::wiqhano_tableau_check(file.as_ptr(), file.len()) })
}

/// Whether two files hold the same tableau.
pub fn same(first: &[u8], second: &[u8]) -> Result<bool, Failure> {
    // SAFETY: the slices' own pointers and lengths
    let answer = unsafe {
        ffi::wiqhano_tableau_same(first.as_ptr(), first.len(), second.as_ptr(), second.len())
    };
    Failure::unless_0(answer.number).map(|()| answer.same)
}

/// A reader of any bytes: what the port answers for them.
macro_rules! readers {
    ($($(#[$doc:meta])* $name:ident ($($index:ident),*) -> $answer:ty = $export:ident,)*) => {
        $($(#[$doc])*
        #[inline]
        pub fn $name(file: &[u8] $(, $index: usize)*) -> $answer {
            // SAFETY: the slice's own pointer and length
            unsafe { ffi::$export(file.as_ptr(), file.len() $(, $index)*) }
        })*
    };
}

readers! {
    stages() -> usize = wiqhano_tableau_stages,
    /// 0 Rosenbrock, 1 hybrid.
    kind() -> usize = wiqhano_tableau_kind,
    /// 0 embedded, 1 step doubling.
    estimator() -> usize = wiqhano_tableau_estimator,
    btilde_present() -> bool = wiqhano_tableau_btilde_present,
    gamma() -> f64 = wiqhano_tableau_gamma,
    /// NaN where j is not below i; for this and those below, also where an index is no stage.
    a(i, j) -> f64 = wiqhano_tableau_a,
    coupling(i, j) -> f64 = wiqhano_tableau_coupling,
    c(i) -> f64 = wiqhano_tableau_c,
    d(i) -> f64 = wiqhano_tableau_d,
    b(i) -> f64 = wiqhano_tableau_b,
    btilde(i) -> f64 = wiqhano_tableau_btilde,
}
