//! Answers the oracle's protocol from the port: a command a line on standard input, an answer a
//! line on standard output. With ORACLE_ECHO set each line read is printed after `> `.
use std::io::{stdin, stdout};

fn main() -> std::io::Result<()> {
    let echo = std::env::var_os("ORACLE_ECHO").is_some();
    wiqhano::protocol::run(stdin().lock(), stdout().lock(), echo)
}
