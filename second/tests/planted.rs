//! Planted faults: a proxy of this program alters outcomes in one way, and the comparison must find each.
//! The proxy is this test's own executable, started with other arguments, so nothing of it is in the product.

use second::calls::*;
use second::compare::{compare, Settings};
use second::planner::listing;
use second::program::read_papers;
use second::script::run_script;
use second::tables::Tables;
use std::collections::BTreeSet;
use std::io::{Read, Write};
use std::time::Duration;
use Argument::{Bytes, Words};

type Fault = fn(&Call, Outcome) -> Outcome;

/// Faults of `calls`, each by name.
const FAULTS: [(&str, Fault); 14] = [
    ("16-for-17", sixteen_for_seventeen),
    ("one-row-per-date", one_row_per_date),
    ("marks-changed-on-refusal", marks_changed_on_refusal),
    ("store-changed-on-refusal", store_changed_on_refusal),
    ("state-changed-on-refusal", state_changed_on_refusal),
    ("late-repeat-taken-for-a-later-step", late_repeat_applied),
    ("rest-of-the-room-cleared", rest_cleared),
    ("answer-begun-on-refusal", answer_begun),
    ("marks-opened-though-the-state-is-short", marks_opened),
    ("equal-answer-rows-once", equal_rows_once),
    ("kept-bytes-made-1", kept_bytes_made_one),
    ("every-missing-relation-is-0", missing_is_zero),
    ("step-not-legal-is-accepted", illegal_accepted),
    ("costs-by-the-low-word", high_words_lost),
];

/// Faults of `plan`, and of the programs as programs.
const PROGRAM_FAULTS: [&str; 5] = [
    "listing-total",
    "stops-early",
    "never-ends",
    "silent-on-damage",
    "two-lines-on-damage",
];

fn main() {
    let arguments: Vec<String> = std::env::args().skip(1).collect();
    match arguments.as_slice() {
        [word, fault, program] if word == "proxy" => proxy(fault, program),
        _ => find_each(),
    }
}

fn find_each() {
    let counts = compare(&settings("none")).unwrap_or_else(|difference| panic!("no fault, but {difference}"));
    println!("no fault: {} outcomes without a difference", counts.outcome_count());
    numbers_missed_are_named();
    let names = FAULTS.iter().map(|&(name, _)| name).chain(PROGRAM_FAULTS);
    for name in names {
        let Err(difference) = compare(&settings(name)) else {
            panic!("the planted fault {name} was not found")
        };
        let head: Vec<&str> = difference.lines().take(3).collect();
        println!(
            "found {name}: {}",
            head.join("; ").chars().take(150).collect::<String>()
        );
    }
}

/// A comparison without a difference fails all the same where numbers were never met.
fn numbers_missed_are_named() {
    let few = |enough: usize| Settings {
        plans: 0,
        outcomes: 20,
        enough,
        ..settings("none")
    };
    // Of the usual numbers 16 is the last; with half of what is enough no other is asked for.
    for (enough, last_number) in [(20, " 17"), (40, " 16")] {
        let said = compare(&few(enough)).expect_err("20 outcomes cannot meet 17 numbers");
        let last = said.lines().last().unwrap_or_default();
        println!("found too few outcomes: {last}");
        assert!(said.contains("no difference") && last.ends_with(last_number), "{said}");
    }
    assert!(
        compare(&few(400)).is_ok(),
        "20 outcomes are too few to ask for any number"
    );
}

fn settings(fault: &str) -> Settings {
    let own = std::env::current_exe().expect("this test's executable");
    let command = |program: &str| vec![own.display().to_string(), "proxy".into(), fault.into(), program.into()];
    let patience = Duration::from_secs(if fault == "never-ends" { 1 } else { 100 });
    let (plan, calls) = (command("plan"), command("calls"));
    Settings {
        plans: 300,
        listings: 40,
        outcomes: 6_000,
        scripts: 14,
        plan,
        calls,
        patience,
        ..Settings::default()
    }
}

fn proxy(fault: &str, program: &str) {
    let mut input = Vec::new();
    std::io::stdin()
        .read_to_end(&mut input)
        .expect("standard input can be read");
    if fault == "never-ends" {
        std::thread::sleep(Duration::from_secs(30));
    }
    match program {
        "plan" => write(proxy_listing(fault, &input).as_bytes()),
        _ => proxy_calls(fault, &input),
    }
}

fn proxy_listing(fault: &str, envelope: &[u8]) -> String {
    let printed = listing(envelope);
    if fault == "listing-total" && printed.lines().count() > 3 {
        return printed.replace("total ", "total 1");
    }
    printed
}

fn proxy_calls(fault: &str, script: &[u8]) {
    let alter = FAULTS.iter().find(|&&(name, _)| name == fault).map(|&(_, alter)| alter);
    let outcome_of = |call: &Call| match alter {
        Some(alter) => alter(call, perform(call)),
        None => perform(call),
    };
    let (mut outcomes, damage) = run_script(script, outcome_of);
    if fault == "stops-early" {
        outcomes.truncate(outcomes.len() * 2 / 3);
    }
    write(&outcomes);
    if let Some(damage) = damage {
        match fault {
            "silent-on-damage" => {}
            "two-lines-on-damage" => eprintln!("damaged script\n{damage:?}"),
            _ => eprintln!("damaged script: {damage:?}"),
        }
    }
}

fn write(bytes: &[u8]) {
    std::io::stdout()
        .write_all(bytes)
        .expect("standard output can be written");
}

fn sixteen_for_seventeen(_: &Call, mut outcome: Outcome) -> Outcome {
    if outcome.number == 17 {
        outcome.number = 16;
    }
    outcome
}

/// Of the rows that a step keeps, only the first with each value stays.
fn one_row_per_date(call: &Call, mut outcome: Outcome) -> Outcome {
    if call.number != RUN_IN_ONE_PLACE || outcome.number != 0 {
        return outcome;
    }
    let papers = read_papers(call.bytes("envelope"), call.bytes("program")).expect("taken, so accepted");
    let tables = Tables::read(&papers.envelope, call.words("tables")).expect("taken, so of the shape");
    let [Bytes(marks)] = outcome.buffers.as_mut_slice() else {
        unreachable!("marks")
    };
    for step in &papers.program.steps {
        let mut seen = BTreeSet::new();
        for (mark, row) in tables.rows(step.left.relation) {
            if marks[mark] != 0 && !seen.insert(row[step.left.column]) {
                marks[mark] = 0;
            }
        }
    }
    outcome
}

fn marks_changed_on_refusal(_: &Call, mut outcome: Outcome) -> Outcome {
    if outcome.number == 15 {
        for buffer in &mut outcome.buffers {
            if let Bytes(marks) = buffer {
                marks.iter_mut().for_each(|mark| *mark = 0);
            }
        }
    }
    outcome
}

fn store_changed_on_refusal(call: &Call, mut outcome: Outcome) -> Outcome {
    if let (RECEIVE, 11, [_, _, Words(store)]) = (call.number, outcome.number, outcome.buffers.as_mut_slice()) {
        let used = call.words("state").get(2).map_or(0, |&used| used as usize);
        let message = call.words("message");
        store
            .iter_mut()
            .skip(used)
            .zip(message)
            .for_each(|(place, &word)| *place = word);
    }
    outcome
}

fn state_changed_on_refusal(call: &Call, mut outcome: Outcome) -> Outcome {
    if let (RECEIVE, 17, [Words(state), ..]) = (call.number, outcome.number, outcome.buffers.as_mut_slice()) {
        state[3] += 1;
    }
    outcome
}

/// A repeat is taken for the step whose turn it is.
fn late_repeat_applied(call: &Call, outcome: Outcome) -> Outcome {
    if call.number != RECEIVE || outcome.number != 16 || call.words("message")[1] >= 256 {
        return outcome;
    }
    let mut later = call.clone();
    let place = call.place("message").expect("receiving has a message");
    let Words(message) = &mut later.arguments[place] else {
        unreachable!("words")
    };
    message[1] += 1;
    let taken = perform(&later);
    if taken.number == 0 {
        taken
    } else {
        outcome
    }
}

fn rest_cleared(call: &Call, mut outcome: Outcome) -> Outcome {
    if let (MAKE_VALUES, 0, [Words(room)]) = (call.number, outcome.number, outcome.buffers.as_mut_slice()) {
        room[outcome.value as usize..].fill(0);
    }
    outcome
}

/// An answer that does not fit has its first words written before it is refused.
fn answer_begun(call: &Call, mut outcome: Outcome) -> Outcome {
    if let (ANSWER_AT_END, 11, [Words(room)]) = (call.number, outcome.number, outcome.buffers.as_mut_slice()) {
        room.iter_mut().take(1).for_each(|word| *word = 0);
    }
    outcome
}

fn marks_opened(call: &Call, mut outcome: Outcome) -> Outcome {
    if let (OPEN, 11, [Bytes(marks), _]) = (call.number, outcome.number, outcome.buffers.as_mut_slice()) {
        marks.iter_mut().for_each(|mark| *mark = 1);
    }
    outcome
}

/// Neighbouring rows of an answer that are equal are given once.
fn equal_rows_once(call: &Call, mut outcome: Outcome) -> Outcome {
    if let (ANSWER, 0, [Words(room)]) = (call.number, outcome.number, outcome.buffers.as_mut_slice()) {
        let envelope = second::envelope::read_envelope(call.bytes("envelope")).expect("taken, so accepted");
        let mut rows: Vec<Vec<u32>> = room[..outcome.value as usize]
            .chunks(envelope.targets.len())
            .map(<[u32]>::to_vec)
            .collect();
        rows.dedup();
        let words = rows.concat();
        room[..words.len()].copy_from_slice(&words);
        outcome.value = words.len() as u32;
    }
    outcome
}

fn kept_bytes_made_one(call: &Call, mut outcome: Outcome) -> Outcome {
    if let (RECEIVE, 0, [_, Bytes(marks), _]) = (call.number, outcome.number, outcome.buffers.as_mut_slice()) {
        marks.iter_mut().for_each(|mark| *mark = u8::from(*mark != 0));
    }
    outcome
}

fn missing_is_zero(call: &Call, mut outcome: Outcome) -> Outcome {
    if call.number == ANSWER_AT_END && outcome.number == 12 {
        outcome.value = 0;
    }
    outcome
}

fn illegal_accepted(call: &Call, mut outcome: Outcome) -> Outcome {
    if call.number == READ_PROGRAM && outcome.number == 8 {
        (outcome.number, outcome.value) = (0, 0);
    }
    outcome
}

fn high_words_lost(call: &Call, mut outcome: Outcome) -> Outcome {
    if let (ESTIMATE, 0, [Words(room)]) = (call.number, outcome.number, outcome.buffers.as_mut_slice()) {
        room[..outcome.value as usize]
            .iter_mut()
            .skip(1)
            .step_by(2)
            .for_each(|high| *high = 0);
    }
    outcome
}
