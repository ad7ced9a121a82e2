//! Prints a plan, as plan.c does:
//! cd examples/library/rust && cargo run --example plan ../../trip.toml ../../trip.case.json
use std::{env, fs, process};

fn main() {
    let given: Vec<_> = env::args().skip(1).map(|path| fs::read(&path).unwrap_or_else(|why| panic!("{path}: {why}"))).collect();
    match sagas::plan(&given[0], &given[1]) {
        Ok(answer) => {
            print!("{}", answer.text);
            process::exit(if answer.yes { 0 } else { 1 });
        }
        Err(why) => {
            eprintln!("{why}");
            process::exit(3);
        }
    }
}
