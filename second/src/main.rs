//! `second plan`, `second calls` and `second compare`.

use second::compare::{compare, Settings};
use second::planner::listing;
use second::script::run_script_soundly;
use std::io::{Read, Write};
use std::process::ExitCode;

const USAGE: &str = "usage: second plan < envelope | second calls < script | second compare [--plans N] \
[--listings N] [--outcomes N] [--scripts N] [--script-calls N] [--seed S | --fresh] [--plan COMMAND] [--calls COMMAND] \
[--patience SECONDS]";

fn main() -> ExitCode {
    let arguments: Vec<String> = std::env::args().skip(1).collect();
    match arguments.first().map(String::as_str) {
        Some("plan") => print(listing(&standard_input()).as_bytes()),
        Some("calls") => calls(),
        Some("compare") => match Settings::read(&arguments[1..]) {
            Ok(settings) => finish(compare(&settings)),
            Err(what) => complain(&format!("{what}\n{USAGE}")),
        },
        _ => complain(USAGE),
    }
}

fn calls() -> ExitCode {
    let (outcomes, damage) = run_script_soundly(&standard_input());
    let status = print(&outcomes);
    match damage {
        None => status,
        Some(damage) => complain(&format!("damaged script: {damage:?}")),
    }
}

fn finish(outcome: Result<second::report::Counts, String>) -> ExitCode {
    match outcome {
        Ok(counts) => print(counts.to_string().as_bytes()),
        Err(difference) => {
            print(difference.as_bytes());
            ExitCode::FAILURE
        }
    }
}

fn standard_input() -> Vec<u8> {
    let mut bytes = Vec::new();
    std::io::stdin()
        .read_to_end(&mut bytes)
        .expect("standard input can be read");
    bytes
}

fn print(bytes: &[u8]) -> ExitCode {
    let mut out = std::io::stdout();
    match out.write_all(bytes).and_then(|()| out.flush()) {
        Ok(()) => ExitCode::SUCCESS,
        Err(_) => ExitCode::FAILURE,
    }
}

fn complain(line: &str) -> ExitCode {
    eprintln!("{line}");
    ExitCode::FAILURE
}
