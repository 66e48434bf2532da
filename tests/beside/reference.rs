//! The reference program: answers a script as quayrun does, written apart from it.
//! `reference store` runs the whole store, `reference graph` the graph that never collects,
//! and `reference audit` the store with the graph beside it, checked after every call and unit.
//! `rustc --test` builds the hand-made cases.

mod audit;
#[cfg(test)]
mod cases;
mod graph;
mod lines;
mod store;

use std::io::{Read, Write};
use std::process::ExitCode;

pub const HOLDER_PLACES: usize = 32;
pub const AGENDA_PLACES: usize = 64;

fn answers(mode: &str, input: &[u8]) -> Option<Vec<u8>> {
    match mode {
        "store" => {
            let mut store = store::Store::new(HOLDER_PLACES, AGENDA_PLACES);
            Some(lines::run_script(input, |call| store.perform(call)))
        }
        "graph" => {
            let mut graph = graph::Graph::new(HOLDER_PLACES, AGENDA_PLACES);
            Some(lines::run_script(input, |call| graph.perform(call)))
        }
        "audit" => {
            let mut audit = audit::Audit::new(HOLDER_PLACES, AGENDA_PLACES);
            let output = lines::run_script(input, |call| audit.perform(call));
            eprintln!("{}", audit.summary());
            Some(output)
        }
        _ => None,
    }
}

fn main() -> ExitCode {
    let mode = std::env::args().nth(1).unwrap_or_default();
    let mut input = Vec::new();
    if let Err(error) = std::io::stdin().read_to_end(&mut input) {
        eprintln!("reference: {error}");
        return ExitCode::FAILURE;
    }
    let Some(output) = answers(&mode, &input) else {
        eprintln!("usage: reference store|graph|audit < script");
        return ExitCode::FAILURE;
    };
    match std::io::stdout().write_all(&output) {
        Ok(()) => ExitCode::SUCCESS,
        Err(_) => ExitCode::FAILURE,
    }
}
