//! The comparison with the program under test, through its two commands.

use crate::calls::{perform, Call, Outcome};
use crate::envelope::{read_envelope, write_envelope};
use crate::generate::damage::{damaged_bytes, spoiled_envelope};
use crate::generate::scene::{with_room, with_short_room};
use crate::generate::{batch, envelopes, papers, programs};
use crate::planner::{listing, plan};
use crate::process::{run, Ran};
use crate::program::write_program;
use crate::random::Random;
use crate::report::{describe_call, describe_outcome, differing_parts, listed, Counts};
use crate::script::{push_outcome, run_script_soundly, script_of, Words};
use std::path::{Path, PathBuf};
use std::time::{Duration, SystemTime, UNIX_EPOCH};

/// Envelopes whose plans go through one script.
const PLAN_BATCH: usize = 500;
/// Parts of a seed from here on are for plans, and from twice here on for damaged scripts.
const PLAN_PARTS: u64 = 1 << 32;
pub const DEFAULT_SEED: u64 = 1979;
/// From so many outcomes on every refusal number is met, whatever the seed: of 10,000 seeds none missed one in half as many.
const ENOUGH_OUTCOMES: usize = 4_000;

pub struct Settings {
    pub plans: usize,
    /// How many of the plans also go through the command `plan`, one process each.
    pub listings: usize,
    pub outcomes: usize,
    /// With as many outcomes, a refusal number that was never met fails the comparison; with half as many, a usual one.
    pub enough: usize,
    pub scripts: usize,
    /// Calls in one script: many, so that starting a process is not the cost.
    pub script_calls: usize,
    pub seed: u64,
    pub root: PathBuf,
    pub plan: Vec<String>,
    pub calls: Vec<String>,
    pub patience: Duration,
}

impl Default for Settings {
    fn default() -> Settings {
        let command = |variable: &str, usual: &str| words(&std::env::var(variable).unwrap_or(usual.to_string()));
        Settings {
            plans: 1_000,
            listings: 100,
            outcomes: 5_000,
            enough: ENOUGH_OUTCOMES,
            scripts: 20,
            script_calls: 2_000,
            seed: DEFAULT_SEED,
            root: Path::new(env!("CARGO_MANIFEST_DIR"))
                .parent()
                .unwrap_or(Path::new("/"))
                .to_path_buf(),
            plan: command("SECOND_PLAN", "bin/run plan"),
            calls: command("SECOND_CALLS", "bin/run calls"),
            patience: Duration::from_secs(600),
        }
    }
}

fn words(command: &str) -> Vec<String> {
    command.split_whitespace().map(str::to_string).collect()
}

impl Settings {
    /// The settings that the options name, over the usual ones.
    pub fn read(options: &[String]) -> Result<Settings, String> {
        let mut settings = Settings::default();
        let mut options = options.iter();
        while let Some(option) = options.next() {
            if option == "--fresh" {
                settings.seed = fresh_seed();
                continue;
            }
            let value = options.next().ok_or(format!("{option} wants a value"))?;
            settings.set(option, value)?;
        }
        Ok(settings)
    }

    fn set(&mut self, option: &str, value: &str) -> Result<(), String> {
        let number = || {
            value
                .parse::<u64>()
                .map_err(|_| format!("{option} wants a number, not {value}"))
        };
        match option {
            "--plans" => self.plans = number()? as usize,
            "--listings" => self.listings = number()? as usize,
            "--outcomes" => self.outcomes = number()? as usize,
            "--scripts" => self.scripts = number()? as usize,
            "--script-calls" => self.script_calls = number()?.max(1) as usize,
            "--seed" => self.seed = number()?,
            "--patience" => self.patience = Duration::from_secs(number()?),
            "--plan" => self.plan = words(value),
            "--calls" => self.calls = words(value),
            _ => return Err(format!("no option {option}")),
        }
        Ok(())
    }

    fn run(&self, command: &[String], input: Vec<u8>) -> Result<Ran, String> {
        run(command, &self.root, input, self.patience).map_err(|what| format!("seed {}\n{what}", self.seed))
    }
}

pub fn fresh_seed() -> u64 {
    let now = SystemTime::now().duration_since(UNIX_EPOCH).unwrap_or_default();
    Random::new(now.as_nanos() as u64 ^ u64::from(std::process::id())).draw()
}

/// Compares as much as the settings say; the first difference ends it, and so does a refusal number never met.
pub fn compare(settings: &Settings) -> Result<Counts, String> {
    let mut counts = Counts {
        seed: settings.seed,
        ..Counts::default()
    };
    println!("seed {}", settings.seed);
    compare_plans(settings, &mut counts)?;
    if settings.listings > 0 {
        for envelope in outer_envelopes() {
            compare_listing(settings, &envelope)?;
            counts.listings += 1;
        }
    }
    let mut number = 0;
    while counts.outcome_count() < settings.outcomes {
        let size = settings.script_calls.min(settings.outcomes - counts.outcome_count());
        let record = batch(settings.seed, number, size);
        compare_calls(settings, &format!("batch {number}"), &record.calls)?;
        record
            .calls
            .iter()
            .for_each(|(call, outcome)| counts.count_outcome(call, outcome));
        counts.whole_runs.add(&record.whole_runs);
        number += 1;
    }
    for number in 0..settings.scripts {
        compare_damaged_script(settings, number)?;
        counts.scripts += 1;
    }
    match counts.check_numbers(settings.enough) {
        Ok(()) => Ok(counts),
        Err(missed) => Err(format!("{counts}{missed}")),
    }
}

fn compare_plans(settings: &Settings, counts: &mut Counts) -> Result<(), String> {
    let mut number = 0;
    while counts.plans < settings.plans {
        let mut random = Random::part(settings.seed, PLAN_PARTS + number);
        let mut calls = Vec::new();
        for _ in 0..PLAN_BATCH.min(settings.plans - counts.plans) {
            let envelope = some_envelope(&mut random);
            let before = calls.len();
            calls.extend(
                plan_calls(&mut random, &envelope)
                    .into_iter()
                    .map(|call| (call.clone(), perform(&call))),
            );
            counts.plan_outcomes += calls.len() - before;
            if counts.listings < settings.listings {
                compare_listing(settings, &envelope)?;
                counts.listings += 1;
            }
            counts.count_plan(read_envelope(&envelope).ok().map(|envelope| plan(&envelope).history));
        }
        compare_calls(settings, &format!("plan batch {number}"), &calls)?;
        number += 1;
    }
    Ok(())
}

/// An envelope's bytes: three of four sound, the others damaged.
fn some_envelope(random: &mut Random) -> Vec<u8> {
    let envelope = envelopes::envelope(random);
    match random.below(8) {
        0 => damaged_bytes(random, &write_envelope(&envelope)),
        1 => spoiled_envelope(random, &envelope),
        _ => write_envelope(&envelope),
    }
}

/// Input at the edges of what `plan` can be given: none, the longest envelope, one byte more, and far more.
fn outer_envelopes() -> Vec<Vec<u8>> {
    let longest = write_envelope(&envelopes::longest_envelope());
    let with = |more: usize| [longest.clone(), vec![0; more]].concat();
    vec![Vec::new(), with(0), with(1), with(1_000_000), vec![b'C'; 100_000]]
}

/// The plan, the estimate of the planned program and that of a program from elsewhere.
fn plan_calls(random: &mut Random, bytes: &[u8]) -> Vec<Call> {
    let roomy = |random: &mut Random, call: Call| match random.chance(1, 20) {
        true => with_short_room(random, call),
        false => with_room(random, call),
    };
    let mut calls = vec![roomy(random, papers::plan(bytes))];
    if let Ok(envelope) = read_envelope(bytes) {
        let planned = write_program(&plan(&envelope).program);
        calls.push(roomy(random, papers::estimate(bytes, &planned)));
        let other = write_program(&programs::program(random, &envelope));
        calls.push(roomy(random, papers::estimate(bytes, &other)));
    }
    calls
}

fn compare_listing(settings: &Settings, envelope: &[u8]) -> Result<(), String> {
    let ran = settings.run(&settings.plan, envelope.to_vec())?;
    let expected = listing(envelope);
    if ran.out == expected.as_bytes() && ran.errors.is_empty() && ran.succeeded {
        return Ok(());
    }
    Err(format!(
        "difference\nseed {}, a listing of plan\nenvelope, {} bytes: {}\nexpected:\n{expected}got:\n{}{}{}\n",
        settings.seed,
        envelope.len(),
        listed(envelope),
        String::from_utf8_lossy(&ran.out),
        String::from_utf8_lossy(&ran.errors),
        if ran.succeeded { "" } else { "(failed status)" },
    ))
}

/// One script of calls, every outcome compared with every buffer.
fn compare_calls(settings: &Settings, which: &str, calls: &[(Call, Outcome)]) -> Result<(), String> {
    let script = script_of(calls.iter().map(|(call, _)| call));
    let ran = settings.run(&settings.calls, script)?;
    let mut position = 0;
    for (index, (call, outcome)) in calls.iter().enumerate() {
        let mut expected = Vec::new();
        push_outcome(&mut expected, outcome);
        let rest = &ran.out[position..];
        if !rest.starts_with(&expected) {
            let place = format!("seed {}, {which}, call {index} of its script", settings.seed);
            return Err(difference(settings, &place, call, outcome, rest, &ran.errors));
        }
        position += expected.len();
    }
    if position < ran.out.len() || !ran.errors.is_empty() || !ran.succeeded {
        let errors = String::from_utf8_lossy(&ran.errors);
        let more = ran.out.len() - position;
        return Err(format!(
            "difference\nseed {}, {which}: {more} bytes too many at the end, or an error: {errors}\n",
            settings.seed
        ));
    }
    Ok(())
}

fn difference(settings: &Settings, place: &str, call: &Call, outcome: &Outcome, rest: &[u8], errors: &[u8]) -> String {
    let got = match Words::new(rest).outcome(call) {
        Ok(got) => {
            let parts = differing_parts(call, outcome, &got).join(", ");
            format!("{}they differ in: {parts}\n", describe_outcome(call, &got))
        }
        Err(_) => {
            let errors = String::from_utf8_lossy(errors);
            format!("no whole outcome: {}\n{errors}\n", listed(&rest[..rest.len().min(400)]))
        }
    };
    let file = std::env::temp_dir().join(format!("second-difference-{}.script", settings.seed));
    let saved = match std::fs::write(&file, script_of([call])) {
        Ok(()) => format!("the script of this call alone: {}\n", file.display()),
        Err(_) => String::new(),
    };
    let expected = describe_outcome(call, outcome);
    format!(
        "difference\n{place}\n{}expected: {expected}got: {got}{saved}",
        describe_call(call)
    )
}

/// A script damaged somewhere: the outcomes so far, and exactly one line on standard error.
fn compare_damaged_script(settings: &Settings, number: usize) -> Result<(), String> {
    let mut random = Random::part(settings.seed, 2 * PLAN_PARTS + number as u64);
    let script = crate::generate::scripts::damaged_script(&mut random, number);
    let (expected, damage) = run_script_soundly(&script);
    let ran = settings.run(&settings.calls, script.clone())?;
    let lines = ran.errors.iter().filter(|&&byte| byte == b'\n').count();
    let ends_well = ran.errors.last().is_none_or(|&byte| byte == b'\n');
    if ran.out == expected && lines == usize::from(damage.is_some()) && ends_well {
        return Ok(());
    }
    Err(format!(
        "difference\nseed {}, damaged script {number} ({damage:?})\nscript, {} bytes: {}\nexpected output: {}\n\
         got: {}\nerror stream: {}\n",
        settings.seed,
        script.len(),
        listed(&script),
        listed(&expected),
        listed(&ran.out),
        String::from_utf8_lossy(&ran.errors),
    ))
}
