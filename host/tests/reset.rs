//! A stepper that was reset beside a new one: after a random list of calls and a reset, both are driven by
//! the same further list, and all but the counters agree, the record and every double of the lent memory
//! included. WIQHANO_SEED sets the seed. The number of pairs is a tenth of WIQHANO_COUNT, 200000 where it
//! is not set.
use std::collections::BTreeMap;
use wiqhano::lists::List;
use wiqhano::protocol::Host;
use wiqhano::protocol::text::{double, vector};
use wiqhano::random::{self, Random};

/// An answer without what it shows of the counters.
fn told(answer: &str) -> String {
    let words = answer.split(' ');
    let words =
        words.filter(|word| !word.starts_with("stats=") && !word.starts_with("view_stats="));
    words.collect::<Vec<_>>().join(" ")
}

/// Record and lent memory, counters apart, to the bit.
fn held(host: &Host) -> (String, Vec<u64>, &[usize]) {
    let (record, memory) = host.system().expect("a stepper was made");
    let doubles = memory.state.iter().chain(&memory.work);
    (
        format!("{:?} {:?}", record.fixed, record.progress),
        doubles.map(|x| x.to_bits()).collect(),
        &memory.pivots,
    )
}

/// A stepper after a list of calls, the tableau's line and the making's.
fn used(r: &mut Random, list: &mut List) -> (Host, String, String) {
    let mut host = Host::default();
    let (mut tableau, mut making) = (String::new(), String::new());
    while let Some(line) = list.next(r, &host) {
        let answer = host.answer(&line);
        match line.split(' ').next() {
            Some("tableau" | "tabfile") => tableau = line,
            Some("make" | "makeb") if answer.starts_with("ok") => making = line,
            _ => {}
        }
    }
    (host, tableau, making)
}

#[test]
fn a_reset_stepper_is_a_new_one() {
    let (seed, pairs) = (random::seed(), random::count(200_000).div_ceil(10));
    println!("seed {seed}");
    let mut r = Random::new(seed);
    let mut answers = 0;
    let mut met: BTreeMap<&str, usize> = BTreeMap::new();
    for pair in 0..pairs {
        let mut list = List::new(&mut r);
        let (mut old, tableau, making) = used(&mut r, &mut list);
        let state: Vec<f64> = {
            let n = old.record().expect("a stepper was made").fixed.n;
            (0..n).map(|_| r.finite()).collect()
        };
        let (time, state) = (double(r.finite()), vector(&state));
        let pending = old
            .record()
            .is_some_and(|record| record.progress.request == 1);
        let reset = old.answer(&format!("reset {time} {state}"));
        assert!(reset.starts_with("ok"), "pair {pair}, seed {seed}: {reset}");
        *met.entry(if pending {
            "a candidate dropped"
        } else {
            "idle"
        })
        .or_insert(0) += 1;

        let mut new = Host::default();
        new.answer(&tableau);
        let mut words: Vec<&str> = making.split(' ').collect();
        (words[1], words[2]) = (&time, &state);
        let made = new.answer(&words.join(" "));
        assert_eq!(told(&made), told(&reset), "pair {pair}, seed {seed}");
        assert_eq!(
            held(&old),
            held(&new),
            "pair {pair}, seed {seed}: after the reset"
        );

        list.go_on(2 + r.below(16));
        let mut lines = Vec::new();
        while let Some(line) = list.next(&mut r, &old) {
            let (of_old, of_new) = (told(&old.answer(&line)), told(&new.answer(&line)));
            let kind = of_old.split(' ').next().unwrap_or_default();
            let kind = ["ok", "need", "err"].into_iter().find(|k| *k == kind);
            *met.entry(kind.unwrap_or("no call")).or_insert(0) += 1;
            lines.push(line);
            let script = || {
                format!(
                    "pair {pair}, seed {seed}: reset {time} {state}\n{}",
                    lines.join("\n")
                )
            };
            assert_eq!(of_old, of_new, "{}", script());
            assert_eq!(held(&old), held(&new), "{}", script());
            answers += 1;
        }
    }
    println!("{met:?}");
    println!("a reset stepper beside a new one: {pairs} pairs, {answers} answers, differing 0");
    for kind in ["a candidate dropped", "idle", "ok", "need", "err"] {
        let times = met.get(kind).copied().unwrap_or(0);
        assert!(
            times >= pairs / 20,
            "{kind}: met {times} times, seed {seed}"
        );
    }
}
