//! Numbers, vectors and arguments as the protocol writes them.
use crate::TimeDifferencePolicy;
use std::collections::HashMap;

// ---- out

/// 16 hexadecimal digits, one pattern for every NaN.
pub fn double(x: f64) -> String {
    // Tested on the bits: two NaNs count as equal, whatever their payload.
    let bits = x.to_bits();
    let nan = bits << 1 > 0xffe0_0000_0000_0000;
    format!("{:016x}", if nan { 0x7ff8_0000_0000_0000 } else { bits })
}

pub fn option(x: Option<f64>) -> String {
    x.map_or("-".into(), double)
}

pub fn vector(v: &[f64]) -> String {
    format!(
        "[{}]",
        v.iter().map(|x| double(*x)).collect::<Vec<_>>().join(",")
    )
}

pub fn numbers(v: &[usize]) -> String {
    format!(
        "[{}]",
        v.iter()
            .map(|x| x.to_string())
            .collect::<Vec<_>>()
            .join(",")
    )
}

// ---- in

pub fn to_double(token: &str) -> Result<f64, String> {
    if token.len() == 16
        && let Ok(bits) = u64::from_str_radix(token, 16)
    {
        return Ok(f64::from_bits(bits));
    }
    // Or a decimal after `=`, for work by hand: =0.5, =-inf, =nan.
    let decimal = token.strip_prefix('=').and_then(|d| d.parse().ok());
    decimal.ok_or_else(|| format!("number {token}"))
}

pub fn to_option(token: &str) -> Result<Option<f64>, String> {
    match token {
        "-" => Ok(None),
        token => to_double(token).map(Some),
    }
}

fn elements<T>(token: &str, to: impl Fn(&str) -> Result<T, String>) -> Result<Vec<T>, String> {
    let inner = token.strip_prefix('[').and_then(|t| t.strip_suffix(']'));
    let inner = inner.ok_or_else(|| format!("vector {token}"))?;
    inner.split(',').filter(|x| !x.is_empty()).map(to).collect()
}

pub fn to_vector(token: &str) -> Result<Vec<f64>, String> {
    elements(token, to_double)
}

pub fn to_numbers(token: &str) -> Result<Vec<usize>, String> {
    elements(token, |x| x.parse().map_err(|_| format!("integer {x}")))
}

/// A line's words: those of the form `key=value` by their keys, the others by their places, of
/// which the first is the command.
pub struct Args<'a> {
    places: Vec<&'a str>,
    named: HashMap<&'a str, &'a str>,
}

impl<'a> Args<'a> {
    pub fn new(line: &'a str) -> Self {
        let (mut places, mut named) = (Vec::new(), HashMap::new());
        for token in line.split_whitespace() {
            match token.split_once('=') {
                Some((key, value)) if !key.is_empty() && !key.starts_with('[') => {
                    named.insert(key, value);
                }
                _ => places.push(token),
            }
        }
        Self { places, named }
    }

    pub fn token(&self, i: usize) -> Result<&'a str, String> {
        let token = self.places.get(i).copied();
        token.ok_or_else(|| format!("argument {i} missing"))
    }

    pub fn double(&self, i: usize) -> Result<f64, String> {
        to_double(self.token(i)?)
    }

    pub fn option(&self, i: usize) -> Result<Option<f64>, String> {
        to_option(self.token(i)?)
    }

    pub fn vector(&self, i: usize) -> Result<Vec<f64>, String> {
        to_vector(self.token(i)?)
    }

    pub fn numbers(&self, i: usize) -> Result<Vec<usize>, String> {
        to_numbers(self.token(i)?)
    }

    pub fn number(&self, i: usize) -> Result<usize, String> {
        let number = self.token(i)?.parse();
        number.map_err(|_| format!("integer argument {i}"))
    }

    /// `h`: the host supplies it; `p`: it is probed.
    pub fn host(&self, i: usize) -> Result<bool, String> {
        match self.token(i)? {
            "h" => Ok(true),
            "p" => Ok(false),
            token => Err(format!("h or p, not {token}")),
        }
    }

    pub fn named(&self, key: &str) -> Option<&'a str> {
        self.named.get(key).copied()
    }

    pub fn named_vector(&self, key: &str, default: &[f64]) -> Result<Vec<f64>, String> {
        self.named
            .get(key)
            .map_or(Ok(default.to_vec()), |t| to_vector(t))
    }

    pub fn named_double(&self, key: &str, default: f64) -> Result<f64, String> {
        self.named.get(key).map_or(Ok(default), |t| to_double(t))
    }

    pub fn named_option(&self, key: &str) -> Result<Option<f64>, String> {
        self.named.get(key).map_or(Ok(None), |t| to_option(t))
    }

    /// scale= rel= frac= lo= hi=, each the default's where it is left out.
    pub fn policy(&self) -> Result<TimeDifferencePolicy, String> {
        let default = TimeDifferencePolicy::default();
        Ok(TimeDifferencePolicy {
            scale: self.named_double("scale", default.scale)?,
            relative_step: self.named_double("rel", default.relative_step)?,
            maximum_fraction: self.named_double("frac", default.maximum_fraction)?,
            bounds: match (self.named_option("lo")?, self.named_option("hi")?) {
                (Some(lo), Some(hi)) => Some((lo, hi)),
                (None, None) => None,
                _ => return Err("lo and hi go together".into()),
            },
        })
    }
}

#[cfg(test)]
mod tests {
    use super::*;

    #[test]
    fn numbers_in_and_out() {
        assert_eq!(to_double("3ff0000000000000"), Ok(1.0));
        assert_eq!(to_double("=-0.5"), Ok(-0.5));
        assert!(to_double("0.5").is_err());
        assert!(to_double("3ff").is_err());
        assert_eq!(
            double(f64::from_bits(0xfff0_0000_0000_0001)),
            "7ff8000000000000"
        );
        assert_eq!(double(f64::NEG_INFINITY), "fff0000000000000");
        assert_eq!(option(None), "-");
        assert_eq!(to_option("-"), Ok(None));
    }

    #[test]
    fn vectors_in_and_out() {
        assert_eq!(to_vector("[=1,3ff0000000000000]"), Ok(vec![1.0, 1.0]));
        assert_eq!(to_vector("[]"), Ok(vec![]));
        assert!(to_vector("=1").is_err());
        assert_eq!(vector(&[0.0, -0.0]), "[0000000000000000,8000000000000000]");
        assert_eq!(vector(&[]), "[]");
        assert_eq!(to_numbers("[0,31]"), Ok(vec![0, 31]));
        assert_eq!(numbers(&[0, 31]), "[0,31]");
        assert!(to_numbers("[-1]").is_err());
    }
}
