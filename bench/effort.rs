//! What a search for the least cover by primes does, in figures: `bench/as_rust.py FOLDER effort` builds it.
//!
//! Reads a description from standard input, lists all its primes and solves their table, whichever
//! way `minimum::exact` takes for such a description; under `--literals` for a cover with the
//! fewest literals. Then it prints a figure a line: how many primes there are; how many rows and
//! live columns the reduced table has; how many tables were looked at, how many questions asked and
//! how many rounds of steps taken to find the least cover; and how many products that has.

use minimum::{Choice, Effort, OfPrimes, Table, least_cover_with_effort, primes, reduce};
use pla::{Echo, Pla, Reading, Writing, read_pla};
use rattle_std::alloc::{AllocError, Global};
use rattle_std::prelude::*;
use std::process::ExitCode;

/// Which least cover the words of the process ask for; none where they ask for something else.
fn choice_of_words() -> Option<Choice> {
    let words: std::vec::Vec<_> = std::env::args().skip(1).collect();
    match words.as_slice() {
        [] => Some(Choice::First),
        [word] if word == "--literals" => Some(Choice::Literals),
        _ => None,
    }
}

/// The description on standard input.
fn description() -> Result<Pla, &'static str> {
    let runtime = HostRuntime;
    let mut input = Reading::new(runtime.stdin());
    let mut output = Writing::new(runtime.stdout());
    read_pla(Global, &mut input, &mut output, Echo::Eat).map_err(|_| "effort: no description")
}

/// The figures of a search, each with its name.
fn figures(pla: &Pla, choice: Choice) -> Result<[(&'static str, u64); 7], AllocError> {
    let sets = pla::sets(Global, pla, true, false)?;
    let table = reduce(Table::build(Global, &primes(&sets)?, &sets)?, choice)?;
    let live = (0..table.columns()).filter(|column| table.is_live(*column)).count();
    let mut effort = Effort::none();
    let products = least_cover_with_effort(&table, choice, &mut effort)?.len();
    Ok([
        ("primes", table.columns() as u64),
        ("rows", table.row_count() as u64),
        ("columns", live as u64),
        ("tables", effort.tables),
        ("questions", effort.questions),
        ("rounds", effort.rounds),
        ("products", products as u64),
    ])
}

fn measure() -> Result<(), &'static str> {
    let choice = choice_of_words().ok_or("usage: effort [--literals] <FILE")?;
    let figures = figures(&description()?, choice).map_err(|_| "effort: out of memory")?;
    for (name, figure) in figures {
        std::println!("{name} {figure}");
    }
    Ok(())
}

fn main() -> ExitCode {
    match measure() {
        Ok(()) => ExitCode::SUCCESS,
        Err(text) => {
            std::eprintln!("{text}");
            ExitCode::from(2)
        }
    }
}
