//! The long comparison with the program under test: 20,000 plans and 100,000 call outcomes when built for
//! release, a short one otherwise. Where the programs are not built there is nothing to compare with.

use second::compare::{compare, Settings};

fn main() {
    let settings = settings();
    if !is_built(&settings) {
        println!(
            "long comparison left out: {} and {} are not built",
            settings.plan.join(" "),
            settings.calls.join(" ")
        );
        return;
    }
    match compare(&settings) {
        Ok(counts) => print!("{counts}"),
        Err(difference) => {
            print!("{difference}");
            std::process::exit(1);
        }
    }
}

fn settings() -> Settings {
    let usual = Settings::default();
    if cfg!(debug_assertions) {
        return Settings {
            plans: 500,
            listings: 20,
            outcomes: 8_000,
            ..usual
        };
    }
    Settings {
        plans: 20_000,
        listings: number("SECOND_LISTINGS", 20_000),
        outcomes: 100_000,
        scripts: 100,
        ..usual
    }
}

fn number(variable: &str, usual: usize) -> usize {
    std::env::var(variable)
        .ok()
        .and_then(|value| value.parse().ok())
        .unwrap_or(usual)
}

/// Each program is built, or another command was given for it. One that is there and fails is compared, and so found.
fn is_built(settings: &Settings) -> bool {
    let there = |name: &str, variable: &str| {
        std::env::var_os(variable).is_some() || settings.root.join("target/bin").join(name).exists()
    };
    there("plan", "SECOND_PLAN") && there("calls", "SECOND_CALLS")
}
