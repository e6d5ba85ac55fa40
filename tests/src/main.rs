//! Compares the library, over its C interface, with an implementation that was written from the paper alone.

mod check;
mod edge;
mod groups;
mod guard;

use check::Check;
use groups::{Group, GROUPS};
use hplog_tests::random::Random;

const HELP: &str = "usage: hplog-tests [--seed N] [--cases N] [--group NAME] [--case N]

  --seed N      the seed of all cases (1)
  --cases N     run N times as many cases (1)
  --group NAME  run one group alone
  --case N      run one case alone, of the group given
  --help        print this

Each case is the same for the same seed, group and number. A mismatch is printed and ends the program with status 1.
Groups:";

struct Options {
    seed: u64,
    cases: u64,
    group: Option<String>,
    case: Option<u64>,
}

fn help() -> String {
    GROUPS.iter().fold(HELP.to_string(), |text, group| format!("{text} {}", group.name))
}

/// The options, or what is wrong with them; `None` where help was asked for.
fn options(mut arguments: impl Iterator<Item = String>) -> Result<Option<Options>, String> {
    let mut options = Options { seed: 1, cases: 1, group: None, case: None };
    while let Some(flag) = arguments.next() {
        if flag == "--help" {
            return Ok(None);
        }
        let value = arguments.next().ok_or(format!("{flag} without a value, or unknown"))?;
        let number = || value.parse().map_err(|_| format!("{flag} takes a number, not {value}"));
        match flag.as_str() {
            "--seed" => options.seed = number()?,
            "--cases" => options.cases = number()?,
            "--case" => options.case = Some(number()?),
            "--group" if GROUPS.iter().any(|group| group.name == value) => options.group = Some(value),
            "--group" => return Err(format!("no group {value}")),
            _ => return Err(format!("unknown flag {flag}")),
        }
    }
    if options.case.is_some() && options.group.is_none() {
        return Err("--case takes a --group too".to_string());
    }
    Ok(Some(options))
}

/// Runs a group's cases; gives the number of calls.
fn run(check: &mut Check, options: &Options, number: usize, group: &Group) -> u64 {
    check.group = group.name;
    let before = check.calls;
    let cases = options.case.map_or(0..group.cases * options.cases, |case| case..case + 1);
    for case in cases {
        check.case = case;
        guard::now_running(group.name, options.seed, case);
        (group.run)(check, &mut Random::new(options.seed, number as u64, case));
    }
    check.calls - before
}

fn main() {
    let options = match options(std::env::args().skip(1)) {
        Ok(Some(options)) => options,
        Ok(None) => {
            println!("{}", help());
            return;
        }
        Err(wrong) => {
            eprintln!("{wrong}\n{}", help());
            std::process::exit(2);
        }
    };
    guard::report_faults();
    let mut check = Check::new(options.seed);
    for (number, group) in GROUPS.iter().enumerate() {
        if options.group.as_deref().is_some_and(|name| name != group.name) {
            continue;
        }
        let calls = run(&mut check, &options, number, group);
        println!("{:<8} {calls:>8} calls agree", group.name);
    }
    println!("{:<8} {:>8} calls agree, seed {}", "total", check.calls, options.seed);
}
