//! Whole lists of the stepper's calls beside the original (WIQHANO_ORACLE names the oracle's
//! program), attempt, attempt_to, supply, accept and reject by value or in place. After each call every reader is read: the
//! answers that are compared are made of what they tell, and they are held to a second reading of
//! the record. WIQHANO_SEED sets the seed, WIQHANO_COUNT the answers compared.
mod oracle;
mod readers;

use oracle::original;
use std::collections::BTreeMap;
use wiqhano::lists::{self, List};
use wiqhano::protocol::{Host, entries};
use wiqhano::random::{self, Random};
use wiqhano::rosenbrock::calls::{Memory, Record};
use wiqhano::rosenbrock::{direct, reading};

/// A line of a list, the port's answer, and their class.
struct Call {
    list: usize,
    line: String,
    port: String,
    class: String,
}

/// Every reader tells what the second reading has, and the wrapper's own view is theirs.
fn read_twice(record: &Record, memory: &Memory, after: &str) {
    let (n, s) = (record.fixed.n, record.fixed.s);
    let (indices, lengths) = ([0, s - 1, s, usize::MAX], [n, n - 1, n + 1]);
    let differing = readers::differing(record, memory, &indices, &lengths);
    assert!(differing.is_empty(), "after {after}: {differing:?}");
    if let Ok(view) = reading::view(record, memory) {
        let own = direct::view(record, memory);
        assert_eq!(entries(&own), entries(&view), "after {after}");
        assert_eq!(own.statistics, view.statistics, "after {after}");
        assert_eq!(own.stage(s - 1), view.stage(s - 1), "after {after}");
    }
}

/// Lists until there are so many lines. A last `fail` closes an attempt that is open only in the
/// original, where the port is wrong.
fn written(random: &mut Random, lines: usize) -> Vec<Call> {
    let mut host = Host::default();
    let mut calls = Vec::new();
    let mut answer = |list: usize, host: &mut Host, line: String| {
        let before = host.record().copied();
        let port = host.answer(&line);
        let class = lists::class(&line, before.as_ref(), host.record(), &port);
        if let Some((record, memory)) = host.system() {
            read_twice(record, memory, &line);
        }
        calls.push(Call {
            list,
            line,
            port,
            class,
        });
        calls.len()
    };
    for number in 0.. {
        let mut list = List::new(random);
        let mut written = 0;
        while let Some(line) = list.next(random, &host) {
            written = answer(number, &mut host, line);
        }
        if written >= lines {
            answer(number, &mut host, "fail".into());
            break;
        }
    }
    calls
}

/// The lines that lead to a call, from its list's start.
fn script(calls: &[Call], at: usize) -> String {
    let list = calls[..=at].iter().filter(|c| c.list == calls[at].list);
    let lines: Vec<String> = list.map(|c| format!("  {}", c.line)).collect();
    lines.join("\n")
}

#[test]
fn the_original() {
    let Ok(oracle) = std::env::var("WIQHANO_ORACLE") else {
        println!("the original is absent: nothing was compared with it in this run");
        return;
    };
    let (seed, count) = (random::seed(), random::count(200_000));
    println!("seed {seed}");
    let mut random = Random::new(seed);
    let (mut compared, mut differing, mut left_out) = (0, 0, 0);
    let mut classes: BTreeMap<String, usize> = BTreeMap::new();
    let mut forms: BTreeMap<String, usize> = BTreeMap::new();
    // by parts, so that not all lines are kept at once
    while compared < count {
        let calls = written(&mut random, (count - compared).min(10_000));
        let answers = original(&oracle, calls.iter().map(|call| &call.line));
        assert_eq!(answers.len(), calls.len(), "the oracle's answers");
        for (at, (call, answer)) in calls.iter().zip(&answers).enumerate() {
            *classes.entry(call.class.clone()).or_insert(0) += 1;
            if let Some(form) = lists::form(&call.line) {
                *forms.entry(form).or_insert(0) += 1;
            }
            // the original cannot be called there
            let expected = match answer.as_str() {
                "bad an attempt is open" => "err 18 AttemptOpen",
                "bad command give" | "bad command fail" => "err 17 NoRequest",
                answer => answer,
            };
            let same = if expected == answer {
                compared += 1;
                call.port == *answer
            } else {
                left_out += 1;
                call.port.starts_with(expected)
            };
            if !same {
                differing += 1;
                if differing <= 10 {
                    let script = script(&calls, at);
                    let port = &call.port;
                    println!("{script}\n  port  {port}\n  other {answer}\n  seed  {seed}");
                }
            }
        }
    }
    for (class, met) in &classes {
        println!("{class}: {met}");
    }
    println!("left out, as the original cannot be called there: {left_out}");
    println!("compared with the original {compared} differing {differing}");
    assert_eq!(differing, 0);
    println!("{forms:?}");
    assert_eq!(forms.len(), 10);
    assert!(forms.values().all(|met| *met >= count / 200), "{forms:?}");
    // each kind of answer is met, and there is no other
    let mut rare = Vec::new();
    for class in lists::classes() {
        let met = classes.remove(&class).unwrap_or(0);
        if met < count / 40_000 {
            rare.push(format!("{class}: {met}"));
        }
    }
    assert!(rare.is_empty(), "met too seldom, seed {seed}: {rare:?}");
    assert!(
        classes.is_empty(),
        "other answers, seed {seed}: {classes:?}"
    );
}
