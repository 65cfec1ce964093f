//! script SEED COUNT: random lines of the protocol, COUNT for each command.
//! script lists SEED COUNT: random lists of the stepper's calls, COUNT lines or a few more; lines
//! that the original cannot be given are left out.
use wiqhano::lists::List;
use wiqhano::protocol::Host;
use wiqhano::random::Random;
use wiqhano::script::COMMANDS;

fn main() {
    let words: Vec<String> = std::env::args().skip(1).collect();
    let lists = words.first().is_some_and(|word| word == "lists");
    let numbers: Vec<u64> = words.iter().filter_map(|w| w.parse().ok()).collect();
    let [seed, count] = numbers[..] else {
        eprintln!("usage: script [lists] SEED COUNT");
        std::process::exit(2);
    };
    let mut random = Random::new(seed);
    if lists {
        return print_lists(&mut random, count);
    }
    for command in COMMANDS {
        for _ in 0..count {
            println!("{}", (command.line)(&mut random));
        }
    }
}

fn print_lists(random: &mut Random, count: u64) {
    let mut host = Host::default();
    let mut printed = 0;
    while printed < count {
        let mut list = List::new(random);
        while let Some(line) = list.next(random, &host) {
            let answer = host.answer(&line);
            if !answer.starts_with("err 17") && !answer.starts_with("err 18") {
                println!("{line}");
                printed += 1;
            }
        }
    }
}
