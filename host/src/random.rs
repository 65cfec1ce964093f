//! Random doubles, chosen to meet the edges of binary64.
use std::time::{SystemTime, UNIX_EPOCH};

const EDGES: &[u64] = &[
    0x0000_0000_0000_0000, // 0
    0x0000_0000_0000_0001, // the smallest subnormal
    0x000f_ffff_ffff_ffff, // the largest subnormal
    0x0010_0000_0000_0000, // the smallest normal
    0x3cb0_0000_0000_0000, // 2^-52
    0x3ed9_65fe_a53d_6e3d, // the cube root of 2^-52
    0x3fe0_0000_0000_0000, // 0.5
    0x3fef_ffff_ffff_ffff, // the last below 1
    0x3ff0_0000_0000_0000, // 1
    0x3ff0_0000_0000_0001, // the first above 1
    0x4340_0000_0000_0000, // 2^53
    0x7fe0_0000_0000_0000, // 2^1023
    0x7fef_ffff_ffff_ffff, // the largest
    0x7ff0_0000_0000_0000, // infinity
    0x7ff8_0000_0000_0000, // NaN
];

/// WIQHANO_SEED, or the clock.
pub fn seed() -> u64 {
    match std::env::var("WIQHANO_SEED") {
        Ok(text) => text.parse().expect("WIQHANO_SEED is a whole number"),
        Err(_) => {
            let now = SystemTime::now().duration_since(UNIX_EPOCH);
            now.map_or(1, |d| d.as_nanos() as u64)
        }
    }
}

/// WIQHANO_COUNT, or the default.
pub fn count(default: usize) -> usize {
    let text = std::env::var("WIQHANO_COUNT");
    text.map_or(default, |t| {
        t.parse().expect("WIQHANO_COUNT is a whole number")
    })
}

/// 2^k, for k from -1074 to 1023.
pub fn power(k: i64) -> f64 {
    f64::from_bits(if k < -1022 {
        1 << (k + 1074)
    } else {
        ((k + 1023) as u64) << 52
    })
}

/// The distance from |x| to the next double above it; below it for the largest.
pub fn ulp(x: f64) -> f64 {
    let x = x.abs().min(f64::MAX.next_down());
    x.next_up() - x
}

/// splitmix64.
pub struct Random(u64);

impl Random {
    pub fn new(seed: u64) -> Self {
        Self(seed)
    }

    pub fn bits(&mut self) -> u64 {
        self.0 = self.0.wrapping_add(0x9e37_79b9_7f4a_7c15);
        let mut z = self.0;
        z = (z ^ (z >> 30)).wrapping_mul(0xbf58_476d_1ce4_e5b9);
        z = (z ^ (z >> 27)).wrapping_mul(0x94d0_49bb_1331_11eb);
        z ^ (z >> 31)
    }

    pub fn below(&mut self, n: u64) -> u64 {
        self.bits() % n
    }

    pub fn chance(&mut self, percent: u64) -> bool {
        self.below(100) < percent
    }

    pub fn pick<T: Copy>(&mut self, of: &[T]) -> T {
        of[self.below(of.len() as u64) as usize]
    }

    /// From 0 to 1, 1 left out.
    pub fn unit(&mut self) -> f64 {
        (self.bits() >> 11) as f64 * power(-53)
    }

    /// 1 or -1.
    pub fn sign(&mut self) -> f64 {
        self.pick(&[1.0, -1.0])
    }

    fn signed(&mut self, x: f64) -> f64 {
        x * self.sign()
    }

    pub fn edge(&mut self) -> f64 {
        let x = f64::from_bits(self.pick(EDGES));
        self.signed(x)
    }

    pub fn subnormal(&mut self) -> f64 {
        let x = f64::from_bits(self.bits() >> (12 + self.below(52)));
        self.signed(x)
    }

    /// x, or one of the two doubles on either side of it.
    pub fn near(&mut self, x: f64) -> f64 {
        let k = self.below(5);
        if x == 0.0 {
            return self.signed(f64::from_bits(k / 2));
        }
        f64::from_bits(x.to_bits().wrapping_add(k).wrapping_sub(2))
    }

    /// Any double, the edges oftener than their share.
    pub fn double(&mut self) -> f64 {
        match self.below(12) {
            0 => self.edge(),
            1 => f64::from_bits(self.bits()),
            2 => self.below(17) as f64 - 8.0,
            3 => {
                let x = power(self.below(2098) as i64 - 1074);
                self.signed(x)
            }
            4 => self.subnormal(),
            5 => {
                let x = self.edge();
                self.near(x)
            }
            6..=8 => (self.unit() * 4.0 - 2.0) * power(self.below(120) as i64 - 60),
            _ => self.unit() * 20.0 - 10.0,
        }
    }

    pub fn finite(&mut self) -> f64 {
        loop {
            let x = self.double();
            if x.is_finite() {
                return x;
            }
        }
    }

    /// Finite and above 0.
    pub fn positive(&mut self) -> f64 {
        loop {
            let x = self.finite().abs();
            if x > 0.0 {
                return x;
            }
        }
    }
}

#[cfg(test)]
mod tests {
    use super::*;

    #[test]
    fn the_generator_is_splitmix64() {
        let mut random = Random::new(1234567);
        let bits: Vec<u64> = (0..3).map(|_| random.bits()).collect();
        assert_eq!(
            bits,
            [
                6457827717110365317,
                3203168211198807973,
                9817491932198370423
            ]
        );
    }

    #[test]
    fn powers_and_gaps() {
        assert_eq!(power(-1074), f64::from_bits(1));
        assert_eq!(power(-1022), f64::MIN_POSITIVE);
        assert_eq!(power(1023), 2f64.powi(1023));
        assert_eq!(ulp(-1.0), f64::EPSILON);
        assert_eq!(ulp(0.0), power(-1074));
        assert_eq!(ulp(f64::MAX), power(971));
    }
}
