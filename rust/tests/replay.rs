//! The runs of tests/attempts, through the crate: what the printed program prints is what the ledger answers here.
mod common;

use common::lent::Side;
use common::raw::Host;
use common::recorded::{runs, Run};
use jamfell::{Ledger, Refused};
use std::fmt::Write;

fn line(position: usize, answer: Result<(), Refused>) -> String {
    match answer {
        Ok(()) => format!("{position} 0 A\n"),
        Err(refused) => format!("{position} {} {}\n", refused.number(), refused.disposition.letter()),
    }
}

/// What the printed program prints.
fn printed(run: &Run) -> String {
    let (attempts, broken) = run.attempts();
    let mut ledger = Ledger::new();
    let mut text = String::new();
    for (i, attempt) in attempts.iter().enumerate() {
        text += &line(i + 1, ledger.apply(attempt));
    }
    match broken {
        true => text += "broken\n",
        false => writeln!(text, "registries {} credentials {}", ledger.registry_count(), ledger.credential_count())
            .expect("a string takes all"),
    }
    text
}

#[test]
fn every_run_prints_its_text() {
    let runs = runs();
    assert_eq!(runs.iter().filter(|run| run.is_recorded()).count(), 24);
    for run in &runs {
        assert_eq!(printed(run), run.expected, "{}", run.name);
    }
    println!("{} runs", runs.len());
}

/// The bytes of the block that differ, as the places of the states and counts that they belong to.
fn changed(before: &[u8], after: &[u8]) -> Vec<String> {
    let place = |at: usize| match at {
        0..12928 => format!("registry {}", at / 808),
        12928..12936 => "registry count".to_owned(),
        12936..47752 => format!("row {}", (at - 12936) / 136),
        _ => "row count".to_owned(),
    };
    let mut places: Vec<_> = (0..before.len()).filter(|at| before[*at] != after[*at]).map(place).collect();
    places.dedup();
    places
}

/// What an attempt of this kind may change: one registry or one row, and with a new one the count.
fn may_change(kind: u8, registries: usize, rows: usize, places: &[String]) -> bool {
    let new_registry = [format!("registry {registries}"), "registry count".to_owned()];
    let new_row = [format!("row {rows}"), "row count".to_owned()];
    match kind {
        1 => places == new_registry,
        2 => matches!(places, [place] if place.starts_with("registry ") && !place.ends_with("count")),
        3 | 5 => places == new_row,
        _ => matches!(places, [place] if place.starts_with("row ") && !place.ends_with("count")),
    }
}

/// An accepted attempt changes the one state that it names, and a refused one (which `Host` holds to it) no byte.
#[test]
fn an_attempt_changes_what_it_names() {
    for (run, side) in runs().iter().zip([Side::Start, Side::End].into_iter().cycle()) {
        let mut host = Host::new(side);
        let (mut registries, mut rows) = (0, 0);
        for attempt in run.attempts().0 {
            let before = host.ledger.bytes().to_vec();
            if host.apply(attempt).number != 0 {
                continue;
            }
            let places = changed(&before, host.ledger.bytes());
            assert!(may_change(attempt[0], registries, rows, &places), "{}: {places:?}", run.name);
            registries += usize::from(attempt[0] == 1);
            rows += usize::from(attempt[0] == 3 || attempt[0] == 5);
        }
    }
}
