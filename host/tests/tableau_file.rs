//! The check of the tableau file beside a second reading of the tableau file's section in
//! docs/RULES.md, on files that are right and files that are damaged. WIQHANO_SEED sets the seed,
//! WIQHANO_COUNT the number of files.
use std::collections::BTreeMap;
use wiqhano::random::{self, Random};
use wiqhano::{Failure, tableau};

const HEADER: usize = 48;
const STAGES: usize = 0;
const KIND: usize = 1;
const ESTIMATOR: usize = 2;
const BTILDE: usize = 3;
const OFFSETS: usize = 4;
const LENGTH: usize = 11;

fn number(file: &[u8], i: usize) -> u32 {
    u32::from_le_bytes(file[4 * i..4 * i + 4].try_into().unwrap())
}

/// The reading: whether these bytes are a tableau file.
fn is_tableau_file(file: &[u8]) -> bool {
    if file.len() < HEADER {
        return false;
    }
    let (stages, present) = (number(file, STAGES), number(file, BTILDE));
    if !(1..=8).contains(&stages)
        || number(file, KIND) > 1
        || number(file, ESTIMATOR) > 1
        || present > 1
    {
        return false;
    }
    let s = stages as usize;
    let pairs = s * (s - 1) / 2;
    // gamma, a, coupling, c, d, b, btilde
    let parts = [1, pairs, pairs, s, s, s, s * present as usize];
    let mut at = HEADER;
    for (part, doubles) in parts.into_iter().enumerate() {
        let absent = part == 6 && present == 0;
        if number(file, OFFSETS + part) as usize != if absent { 0 } else { at } {
            return false;
        }
        at += 8 * doubles;
    }
    number(file, LENGTH) as usize == at
        && file.len() == at
        && file[HEADER..]
            .chunks_exact(8)
            .all(|bytes| f64::from_le_bytes(bytes.try_into().unwrap()).is_finite())
}

/// A file by its numbers and doubles, which need not fit each other.
#[derive(Clone)]
struct Draft {
    numbers: [u32; 12],
    doubles: Vec<f64>,
}

impl Draft {
    /// As many doubles as the counts ask for, offsets and length to match, for any counts.
    fn new(random: &mut Random, counts: [u32; 4]) -> Self {
        let [s, _, _, present] = counts;
        let pairs = s * s.saturating_sub(1) / 2;
        let mut numbers = [0; 12];
        numbers[..OFFSETS].copy_from_slice(&counts);
        let mut at = HEADER as u32;
        for (part, doubles) in [1, pairs, pairs, s, s, s].into_iter().enumerate() {
            numbers[OFFSETS + part] = at;
            at += 8 * doubles;
        }
        if present != 0 {
            numbers[OFFSETS + 6] = at;
            at += 8 * s;
        }
        numbers[LENGTH] = at;
        let doubles = (0..(at as usize - HEADER) / 8)
            .map(|_| random.finite())
            .collect();
        Self { numbers, doubles }
    }

    fn bytes(&self) -> Vec<u8> {
        let numbers = self.numbers.iter().flat_map(|n| n.to_le_bytes());
        let doubles = self.doubles.iter().flat_map(|x| x.to_le_bytes());
        numbers.chain(doubles).collect()
    }
}

fn valid_counts(random: &mut Random) -> [u32; 4] {
    [
        1 + random.below(8) as u32,
        random.below(2) as u32,
        random.below(2) as u32,
        random.below(2) as u32,
    ]
}

fn valid(random: &mut Random) -> Draft {
    let counts = valid_counts(random);
    Draft::new(random, counts)
}

/// A number other than the one that stands there, near it, or anything.
fn other_number(random: &mut Random, x: u32) -> u32 {
    let by = random.pick(&[1, 4, 8, 16, 1 << 16, 1 << 31]);
    match random.below(4) {
        0 => x.wrapping_add(by),
        1 => x.wrapping_sub(by),
        2 if x != 0 => 0,
        _ => x ^ (1 + random.below(u32::MAX.into()) as u32),
    }
}

fn other_byte(random: &mut Random, x: u8) -> u8 {
    match random.below(3) {
        0 => x.wrapping_add(1),
        1 => x ^ 1 << random.below(8),
        _ => x ^ (1 + random.below(255) as u8),
    }
}

type Make = fn(&mut Random) -> Vec<u8>;

/// Whether the files of a kind are taken: all, none, or some.
enum Taken {
    All,
    None,
    Some,
}

/// Each kind of file, and what the paper says of it.
const KINDS: &[(&str, Taken, Make)] = &[
    ("valid", Taken::All, |r| valid(r).bytes()),
    ("one byte altered", Taken::Some, |r| {
        let mut file = valid(r).bytes();
        let at = r.below(file.len() as u64) as usize;
        file[at] = other_byte(r, file[at]);
        file
    }),
    ("one byte of the header altered", Taken::Some, |r| {
        let mut file = valid(r).bytes();
        let at = r.below(HEADER as u64) as usize;
        file[at] = other_byte(r, file[at]);
        file
    }),
    ("cut short", Taken::None, |r| {
        let mut file = valid(r).bytes();
        let length = file.len() as u64;
        let kept = match r.below(4) {
            0 => r.below(HEADER as u64 + 1),
            1 => length - 1 - r.below(8),
            _ => r.below(length),
        };
        file.truncate(kept as usize);
        file
    }),
    ("extended", Taken::None, |r| {
        let mut file = valid(r).bytes();
        let most = r.pick(&[16, 16, 1000]);
        let more = 1 + r.below(most);
        file.extend((0..more).map(|_| r.bits() as u8));
        file
    }),
    ("extended, the length right", Taken::None, |r| {
        let mut draft = valid(r);
        draft.doubles.push(r.finite());
        draft.numbers[LENGTH] += 8;
        draft.bytes()
    }),
    ("two offsets exchanged", Taken::Some, |r| {
        let mut draft = valid(r);
        let i = OFFSETS + r.below(8) as usize;
        let j = OFFSETS + r.below(8) as usize;
        draft.numbers.swap(i, j);
        draft.bytes()
    }),
    ("an offset altered", Taken::None, |r| {
        let mut draft = valid(r);
        let i = OFFSETS + r.below(7) as usize;
        draft.numbers[i] = other_number(r, draft.numbers[i]);
        draft.bytes()
    }),
    ("the length altered", Taken::None, |r| {
        let mut draft = valid(r);
        draft.numbers[LENGTH] = other_number(r, draft.numbers[LENGTH]);
        draft.bytes()
    }),
    ("a gap before a part", Taken::None, |r| {
        let mut draft = valid(r);
        let part = r.below(7) as usize;
        let place = (draft.numbers[OFFSETS + part] as usize).max(HEADER);
        draft.doubles.insert((place - HEADER) / 8, r.finite());
        for number in &mut draft.numbers[OFFSETS + part..] {
            if *number != 0 {
                *number += 8;
            }
        }
        draft.bytes()
    }),
    ("an absent btilde with an offset", Taken::None, |r| {
        let mut counts = valid_counts(r);
        counts[BTILDE] = 0;
        let mut draft = Draft::new(r, counts);
        let end = draft.numbers[LENGTH];
        draft.numbers[OFFSETS + 6] = r.pick(&[end, 1, 48, end - 8]);
        draft.bytes()
    }),
    ("a present btilde without an offset", Taken::None, |r| {
        let mut counts = valid_counts(r);
        counts[BTILDE] = 1;
        let mut draft = Draft::new(r, counts);
        draft.numbers[OFFSETS + 6] = 0;
        draft.bytes()
    }),
    ("a NaN", Taken::None, |r| {
        let mut draft = valid(r);
        let i = r.below(draft.doubles.len() as u64) as usize;
        let payload = 1 + r.below((1 << 52) - 1);
        draft.doubles[i] = f64::from_bits(r.below(2) << 63 | 0x7ff << 52 | payload);
        draft.bytes()
    }),
    ("an infinity", Taken::None, |r| {
        let mut draft = valid(r);
        let i = r.below(draft.doubles.len() as u64) as usize;
        draft.doubles[i] = r.sign() * f64::INFINITY;
        draft.bytes()
    }),
    ("a zero or the largest double", Taken::All, |r| {
        let mut draft = valid(r);
        let i = r.below(draft.doubles.len() as u64) as usize;
        draft.doubles[i] = r.sign() * r.pick(&[0.0, f64::MAX, f64::from_bits(1)]);
        draft.bytes()
    }),
    ("a count altered", Taken::Some, |r| {
        let mut draft = valid(r);
        let i = r.below(4) as usize;
        draft.numbers[i] = if r.chance(70) {
            r.below(11) as u32
        } else {
            other_number(r, draft.numbers[i])
        };
        draft.bytes()
    }),
    ("stages 0, 9 and above, the rest right", Taken::None, |r| {
        let mut counts = valid_counts(r);
        counts[STAGES] = r.pick(&[0, 9, 10, 16]);
        Draft::new(r, counts).bytes()
    }),
    ("kind 2 and above, the rest right", Taken::None, |r| {
        let mut counts = valid_counts(r);
        counts[KIND] = r.pick(&[2, 3, 256, u32::MAX]);
        Draft::new(r, counts).bytes()
    }),
    ("estimator 2 and above, the rest right", Taken::None, |r| {
        let mut counts = valid_counts(r);
        counts[ESTIMATOR] = r.pick(&[2, 3, 256, u32::MAX]);
        Draft::new(r, counts).bytes()
    }),
    ("btilde 2 and above, the rest right", Taken::None, |r| {
        let mut counts = valid_counts(r);
        let s = 8 * counts[STAGES];
        counts[BTILDE] = r.pick(&[2, 2, 3, 256, u32::MAX]);
        let mut draft = Draft::new(r, counts);
        // as if it were there once, or were absent, or were there so many times
        match r.below(3) {
            0 => {}
            1 => {
                draft.numbers[OFFSETS + 6] = 0;
                draft.numbers[LENGTH] -= s;
            }
            _ => draft.numbers[LENGTH] += s * (counts[BTILDE].min(3) - 1),
        }
        let doubles = (draft.numbers[LENGTH] as usize - HEADER) / 8;
        draft.doubles.resize_with(doubles, || r.finite());
        draft.bytes()
    }),
    ("random bytes", Taken::None, |r| {
        let length = r.below(800);
        (0..length).map(|_| r.bits() as u8).collect()
    }),
];

fn shown(file: &[u8]) -> String {
    file.iter().map(|byte| format!("{byte:02x}")).collect()
}

#[derive(Default)]
struct Tally {
    compared: usize,
    taken: usize,
    differing: usize,
}

impl Tally {
    fn case(&mut self, name: &str, seed: u64, file: &[u8]) -> bool {
        let reading = is_tableau_file(file);
        let port = tableau::check(file);
        self.compared += 1;
        self.taken += usize::from(reading);
        let expected = if reading {
            Ok(())
        } else {
            Err(Failure::TableauFile)
        };
        if port != expected {
            self.differing += 1;
            if self.differing <= 10 {
                let file = shown(file);
                println!("{name}: port {port:?}, taken {reading}, seed {seed}\n  {file}");
            }
        }
        reading
    }
}

#[test]
fn random_files() {
    let (seed, count) = (random::seed(), random::count(200_000));
    println!("seed {seed}");
    let mut random = Random::new(seed);
    let mut tallies: BTreeMap<&str, Tally> = BTreeMap::new();
    for _ in 0..count {
        let (name, _, make) = &KINDS[random.below(KINDS.len() as u64) as usize];
        let file = make(&mut random);
        tallies.entry(name).or_default().case(name, seed, &file);
    }
    let (mut compared, mut differing) = (0, 0);
    for (name, taken, _) in KINDS {
        let tally = tallies.remove(name).unwrap_or_default();
        println!("{name}: {} files, {} taken", tally.compared, tally.taken);
        // each kind is met often, and is what it is meant to be
        assert!(
            tally.compared >= count / 200,
            "{name}: only {}, seed {seed}",
            tally.compared
        );
        let meant = match taken {
            Taken::All => tally.taken == tally.compared,
            Taken::None => tally.taken == 0,
            Taken::Some => tally.compared < 1000 || (1..tally.compared).contains(&tally.taken),
        };
        assert!(meant, "{name}: {} taken, seed {seed}", tally.taken);
        compared += tally.compared;
        differing += tally.differing;
    }
    println!("compared tableau files {compared} differing {differing}");
    assert_eq!(differing, 0);
}

/// For every stages, kind, estimator and btilde: the file is taken, and then each byte of it is
/// altered in turn, and it is cut at each length.
#[test]
fn every_byte() {
    let seed = random::seed();
    println!("seed {seed}");
    let mut random = Random::new(seed);
    let mut tally = Tally::default();
    let mut refused_bytes = 0;
    for shape in 0..64 {
        let counts = [1 + shape / 8, shape / 4 % 2, shape / 2 % 2, shape % 2];
        let file = Draft::new(&mut random, counts).bytes();
        assert!(tally.case("valid", seed, &file), "{counts:?}, seed {seed}");
        for at in 0..file.len() {
            let mut altered = file.clone();
            altered[at] = other_byte(&mut random, file[at]);
            let taken = tally.case("altered", seed, &altered);
            refused_bytes += usize::from(!taken);
            // the kind and the estimator may become the other; nothing else of the header may change
            if at < HEADER && at != 4 * KIND && at != 4 * ESTIMATOR {
                assert!(!taken, "byte {at} of {counts:?}, seed {seed}");
            }
            assert!(!tally.case("cut", seed, &file[..at]), "cut at {at}");
        }
    }
    println!(
        "compared tableau files byte by byte {} differing {}",
        tally.compared, tally.differing
    );
    assert_eq!(tally.differing, 0);
    assert!(refused_bytes > 64 * 40 && tally.taken > 64 * 100);
}
