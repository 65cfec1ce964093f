//! The port beside the original (WIQHANO_ORACLE names the oracle's program) and beside Rust's own
//! floats, on random inputs. WIQHANO_SEED sets the seed, WIQHANO_COUNT the inputs for each call.
mod oracle;

use oracle::original;
use std::collections::BTreeMap;
use wiqhano::protocol::Host;
use wiqhano::protocol::text::double as hex;
use wiqhano::random::{self, Random, power};
use wiqhano::{float, script};

/// Differences are printed, the first ten of each call.
#[derive(Default)]
struct Tally {
    compared: usize,
    differing: usize,
}

impl Tally {
    fn case(&mut self, seed: u64, what: impl FnOnce() -> String, port: &str, other: &str) {
        self.compared += 1;
        if port != other {
            self.differing += 1;
            if self.differing <= 10 {
                println!(
                    "{}\n  port  {port}\n  other {other}\n  seed  {seed}",
                    what()
                );
            }
        }
    }

    fn end(self, name: &str, total: &mut Tally) {
        println!(
            "compared {name} {} differing {}",
            self.compared, self.differing
        );
        total.compared += self.compared;
        total.differing += self.differing;
    }
}

#[test]
fn the_original() {
    let Ok(oracle) = std::env::var("WIQHANO_ORACLE") else {
        println!("the original is absent: nothing was compared with it in this run");
        return;
    };
    let (seed, count) = (random::seed(), random::count(200_000));
    println!("seed {seed}");
    let mut random = Random::new(seed);
    let mut total = Tally::default();
    let mut rare = Vec::new();
    for command in script::COMMANDS {
        let mut tally = Tally::default();
        let mut classes = BTreeMap::new();
        // by parts, so that not all lines are kept at once; a part starts with a controller
        while tally.compared < count {
            let part = (count - tally.compared).min(10_000);
            let first = "ctl new".to_string();
            let lines = (1..part).map(|_| (command.line)(&mut random));
            let lines: Vec<String> = std::iter::once(first).chain(lines).collect();
            let answers = original(&oracle, lines.iter());
            assert_eq!(
                answers.len(),
                part,
                "{}: the oracle's answers",
                command.name
            );
            let mut host = Host::default();
            for (line, answer) in lines.iter().zip(&answers) {
                let expected = script::compared(line, answer);
                let port = script::compared(line, &host.answer(line));
                tally.case(seed, || line.clone(), &port, &expected);
                if line != &lines[0] {
                    *classes.entry(script::class(line, &expected)).or_insert(0) += 1;
                }
            }
        }
        println!("{}: {classes:?}", command.name);
        // each kind of answer is met often, and there is no other
        for class in command.classes {
            let met = classes.remove(*class).unwrap_or(0);
            if met < count / 100 {
                rare.push(format!("{} {class}: {met}", command.name));
            }
        }
        assert!(
            classes.is_empty(),
            "{}: other answers {classes:?}",
            command.name
        );
        tally.end(command.name, &mut total);
    }
    println!(
        "compared with the original {} differing {}",
        total.compared, total.differing
    );
    assert_eq!(total.differing, 0);
    assert!(rare.is_empty(), "met too seldom, seed {seed}: {rare:?}");
}

/// For two zeros either is right.
fn same_zero(x: f64) -> String {
    hex(if x == 0.0 { 0.0 } else { x })
}

/// The square roots' inputs beside the random ones: for every exponent, subnormals included, the
/// first and last significands, some between, and squares with their neighbours.
fn roots(random: &mut Random) -> Vec<f64> {
    let mut inputs = Vec::new();
    for exponent in 0..0x7ff_u64 {
        let mut significands = vec![
            0,
            1,
            2,
            3,
            1 << 51,
            (1 << 51) - 1,
            (1 << 52) - 2,
            (1 << 52) - 1,
        ];
        significands.extend((0..8).map(|_| random.bits() >> 12));
        inputs.extend(
            significands
                .iter()
                .map(|s| f64::from_bits(exponent << 52 | s)),
        );
        let root = f64::from_bits((exponent / 2 + 512) << 52 | random.bits() >> 12);
        let square = (root * root).to_bits();
        inputs.extend((0..5).map(|k| f64::from_bits(square + k - 2)));
    }
    inputs.extend((-1074..1024).map(power));
    for bits in [0, 1, 0x7ff << 52, 0x7ff8 << 48, 0x7ff0_0000_0000_0001] {
        inputs.extend([f64::from_bits(bits), f64::from_bits(bits | 1 << 63)]);
    }
    inputs
}

#[test]
fn the_standard_library() {
    let (seed, count) = (random::seed(), random::count(200_000));
    println!("seed {seed}");
    let mut random = Random::new(seed);
    let mut total = Tally::default();

    let mut tally = Tally::default();
    let mut inputs = roots(&mut random);
    inputs.extend((0..count).map(|_| {
        let x = random.double();
        if random.chance(80) { x.abs() } else { x }
    }));
    for x in inputs {
        let what = || format!("sqrt {}", hex(x));
        tally.case(seed, what, &hex(wiqhano::sqrt(x)), &hex(x.sqrt()));
    }
    tally.end("sqrt", &mut total);

    type One = (&'static str, fn(f64) -> String, fn(f64) -> String);
    let ones: [One; 4] = [
        ("abs", |x| hex(float::abs(x)), |x| hex(x.abs())),
        ("signum", |x| hex(float::signum(x)), |x| hex(x.signum())),
        (
            "is_finite",
            |x| float::is_finite(x).to_string(),
            |x| x.is_finite().to_string(),
        ),
        (
            "is_nan",
            |x| float::is_nan(x).to_string(),
            |x| x.is_nan().to_string(),
        ),
    ];
    for (name, port, std) in ones {
        let mut tally = Tally::default();
        for _ in 0..count {
            let x = random.double();
            tally.case(seed, || format!("{name} {}", hex(x)), &port(x), &std(x));
        }
        tally.end(name, &mut total);
    }

    type Two = (&'static str, fn(f64, f64) -> f64, fn(f64, f64) -> f64);
    let twos: [Two; 2] = [("max", float::max, f64::max), ("min", float::min, f64::min)];
    for (name, port, std) in twos {
        let mut tally = Tally::default();
        for _ in 0..count {
            let a = random.double();
            let b = [random.double(), random.near(a), a, -a][random.below(4) as usize];
            let what = || format!("{name} {} {}", hex(a), hex(b));
            tally.case(seed, what, &same_zero(port(a, b)), &same_zero(std(a, b)));
        }
        tally.end(name, &mut total);
    }

    // only bounds that Rust's clamp takes: it panics at others
    let mut tally = Tally::default();
    while tally.compared < count {
        let (lo, hi) = (random.double(), random.double());
        if lo <= hi {
            let x =
                [random.double(), random.near(lo), random.near(hi), lo][random.below(4) as usize];
            let what = || format!("clamp {} {} {}", hex(x), hex(lo), hex(hi));
            tally.case(
                seed,
                what,
                &hex(float::clamp(x, lo, hi)),
                &hex(x.clamp(lo, hi)),
            );
        }
    }
    tally.end("clamp", &mut total);
    println!(
        "compared with Rust's own floats {} differing {}",
        total.compared, total.differing
    );
    assert_eq!(total.differing, 0);
}
