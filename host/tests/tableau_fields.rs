//! The readers of the tableau file and the sameness of two files, beside a second reading of the
//! tableau file's section in docs/RULES.md. WIQHANO_SEED sets the seed, WIQHANO_COUNT the number of
//! files.
use std::collections::BTreeMap;
use wiqhano::random::{self, Random};
use wiqhano::{Failure, tableau};

#[derive(Clone, PartialEq)]
struct Tableau {
    stages: usize,
    kind: u32,
    estimator: u32,
    gamma: f64,
    a: Vec<Vec<f64>>,
    coupling: Vec<Vec<f64>>,
    c: Vec<f64>,
    d: Vec<f64>,
    b: Vec<f64>,
    btilde: Option<Vec<f64>>,
}

impl Tableau {
    fn random(random: &mut Random) -> Self {
        let s = 1 + random.below(8) as usize;
        let mut row = |n: usize| -> Vec<f64> { (0..n).map(|_| random.finite()).collect() };
        Self {
            stages: s,
            gamma: row(1)[0],
            a: (0..s).map(&mut row).collect(),
            coupling: (0..s).map(&mut row).collect(),
            c: row(s),
            d: row(s),
            b: row(s),
            btilde: Some(row(s)).filter(|_| random.chance(50)),
            kind: random.below(2) as u32,
            estimator: random.below(2) as u32,
        }
    }

    fn coefficients(&mut self) -> Vec<&mut f64> {
        let matrices = self.a.iter_mut().chain(&mut self.coupling);
        let vectors = [&mut self.c, &mut self.d, &mut self.b].into_iter();
        let rows = matrices.chain(vectors).chain(&mut self.btilde);
        [&mut self.gamma]
            .into_iter()
            .chain(rows.flatten())
            .collect()
    }

    /// The parts one after the other, each with where it starts.
    fn file(&self) -> Vec<u8> {
        let mut doubles: Vec<f64> = Vec::new();
        let mut offsets = Vec::new();
        let (a, coupling) = (self.a.concat(), self.coupling.concat());
        let gamma = vec![self.gamma];
        for part in [&gamma, &a, &coupling, &self.c, &self.d, &self.b] {
            offsets.push(48 + 8 * doubles.len() as u32);
            doubles.extend(part);
        }
        offsets.push(match &self.btilde {
            Some(part) => {
                let offset = 48 + 8 * doubles.len() as u32;
                doubles.extend(part);
                offset
            }
            None => 0,
        });
        offsets.push(48 + 8 * doubles.len() as u32);
        let present = self.btilde.is_some() as u32;
        let counts = [self.stages as u32, self.kind, self.estimator, present];
        let numbers = counts.into_iter().chain(offsets);
        let numbers = numbers.flat_map(u32::to_le_bytes);
        numbers
            .chain(doubles.into_iter().flat_map(f64::to_le_bytes))
            .collect()
    }
}

/// The same bits, or a NaN for a coefficient that is not there.
fn agrees(port: f64, file: Option<&f64>) -> bool {
    file.map_or(port.is_nan(), |x| x.to_bits() == port.to_bits())
}

#[test]
fn fields() {
    let (seed, count) = (random::seed(), random::count(200_000));
    println!("seed {seed}");
    let mut random = Random::new(seed);
    let (mut compared, mut differing) = (0, 0);
    for _ in 0..count / 20 {
        let t = Tableau::random(&mut random);
        let file = t.file();
        assert_eq!(tableau::check(&file), Ok(()), "seed {seed}");
        assert_eq!(tableau::stages(&file), t.stages, "seed {seed}");
        assert_eq!(tableau::kind(&file), t.kind as usize, "seed {seed}");
        assert_eq!(
            tableau::estimator(&file),
            t.estimator as usize,
            "seed {seed}"
        );
        assert_eq!(
            tableau::btilde_present(&file),
            t.btilde.is_some(),
            "seed {seed}"
        );
        let mut case = |name: &str, i: usize, j: usize, port: f64, other: Option<&f64>| {
            compared += 1;
            if !agrees(port, other) {
                differing += 1;
                if differing <= 10 {
                    println!("{name} {i} {j}: port {port}, file {other:?}, seed {seed}");
                }
            }
        };
        case("gamma", 0, 0, tableau::gamma(&file), Some(&t.gamma));
        for i in (0..10).chain([usize::MAX]) {
            for j in (0..10).chain([usize::MAX]) {
                let a = t.a.get(i).and_then(|row| row.get(j));
                case("a", i, j, tableau::a(&file, i, j), a);
                let coupling = t.coupling.get(i).and_then(|row| row.get(j));
                case("coupling", i, j, tableau::coupling(&file, i, j), coupling);
            }
            case("c", i, 0, tableau::c(&file, i), t.c.get(i));
            case("d", i, 0, tableau::d(&file, i), t.d.get(i));
            case("b", i, 0, tableau::b(&file, i), t.b.get(i));
            let btilde = t.btilde.as_ref().and_then(|part| part.get(i));
            case("btilde", i, 0, tableau::btilde(&file, i), btilde);
        }
    }
    println!("compared tableau fields {compared} differing {differing}");
    assert_eq!(differing, 0);
}

#[test]
fn sameness() {
    let (seed, count) = (random::seed(), random::count(200_000));
    println!("seed {seed}");
    let mut random = Random::new(seed);
    let mut met: BTreeMap<String, usize> = BTreeMap::new();
    for _ in 0..count {
        let mut x = Tableau::random(&mut random);
        let mut y = x.clone();
        let mut spoilt = None;
        let what = random.below(10);
        let at = random.below(x.coefficients().len() as u64) as usize;
        match what {
            0 => {}
            1 => {
                *x.coefficients()[at] = 0.0;
                *y.coefficients()[at] = -0.0;
            }
            2 => *y.coefficients()[at] = random.finite(),
            3 => {
                let next = random.near(*x.coefficients()[at]);
                *y.coefficients()[at] = if next.is_finite() { next } else { 0.0 };
            }
            4 => y.kind = 1 - x.kind,
            5 => y.estimator = 1 - x.estimator,
            6 => {
                y.btilde = match y.btilde {
                    Some(_) => None,
                    None => Some(vec![0.0; y.stages]),
                }
            }
            7 => y = Tableau::random(&mut random),
            _ => spoilt = Some(what == 8),
        }
        let (mut first, mut second) = (x.file(), y.file());
        let expected = match spoilt {
            Some(which) => {
                let file = if which { &mut first } else { &mut second };
                file.pop();
                Err(Failure::TableauFile)
            }
            // Rust compares -0 and 0 as equal
            None => Ok(x == y),
        };
        for (p, q) in [(&first, &second), (&second, &first)] {
            assert_eq!(tableau::same(p, q), expected, "case {what}, seed {seed}");
        }
        *met.entry(format!("{what} {expected:?}")).or_default() += 1;
    }
    println!("{met:?}");
    println!("compared tableau sameness {} differing 0", 2 * count);
    // each case is met often
    for case in [
        "0 Ok(true)",
        "1 Ok(true)",
        "2 Ok(false)",
        "3 Ok(false)",
        "4 Ok(false)",
        "5 Ok(false)",
        "6 Ok(false)",
        "7 Ok(false)",
        "8 Err(TableauFile)",
        "9 Err(TableauFile)",
    ] {
        let times = met.get(case).copied().unwrap_or(0);
        assert!(times >= count / 200, "{case}: {times}, seed {seed}");
    }
}
