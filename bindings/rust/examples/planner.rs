//! The shot planner of examples/c/planner.c, in Rust: it makes the same calls and prints the same.

use std::fmt::Write;
use tableau_sum::{Circuit, Error, Size, TableauSum};

const SHOTS: f64 = 10000.0;

fn main() -> Result<(), Error> {
    print!("{}", plan()?);
    Ok(())
}

/// Everything that it prints.
pub fn plan() -> Result<String, Error> {
    let mut sum = TableauSum::fresh(Size { n: 3, k: 1, capacity: 32 }, 1e-6, 1e-3)?;
    let mut report = String::new();
    circuit(&mut sum, &mut report)?;
    table(&sum, &mut report)?;
    picks(&sum, &mut report)?;
    page(&sum, &mut report)?;
    sheet(&sum, &mut report)?;
    refusal(&mut sum, &mut report);
    Ok(report)
}

/// A line of it.
macro_rules! line {
    ($report:expr, $($text:tt)*) => { writeln!($report, $($text)*).expect("a string takes every line") };
}

const CALLS: [&str; 7] =
    ["h 0", "cnot 0 1", "cnot 1 2", "depolarize1 0, 3%", "loss_channel 1, 10%", "reset_loss_channel 1", "loss_channel 2, 2%"];

/// A GHZ state, and then noise: one call of the library, which ends with the first call of the circuit that it refuses. Prints what each
/// did, and what all of them lost. Truncating takes of what the drops have left.
fn circuit(sum: &mut TableauSum, report: &mut String) -> Result<(), Error> {
    let mut circuit = Circuit::new();
    circuit.h(0).cnot(0, 1).cnot(1, 2);
    circuit.depolarize1(0, 0.03).loss_channel(1, 0.1).reset_loss_channel(1).loss_channel(2, 0.02);
    line!(report, "call                  merged  stored  dropped  entries  weight dropped  truncated");
    let mut kept = 1.0;
    for (call, step) in CALLS.iter().zip(&sum.run_until_refused(&circuit)) {
        let step = step?;
        let (c, lost) = (step.counts, step.lost);
        let counts = format!("{:6}  {:6}  {:7}  {:7}", c.merged, c.stored, c.dropped, step.entries);
        line!(report, "{call:<20}  {counts}  {:14.6}  {:9.6}", lost.dropped, lost.truncated);
        kept = kept * (1.0 - lost.dropped) * (1.0 - lost.truncated);
    }
    line!(report, "lost in all: {:.6} of the weight; what is left adds up to 1 all the same", 1.0 - kept);
    Ok(())
}

/// Shots up to a running total of weights, so that the shares add up to all of them.
fn shots_to(total: f64) -> u64 {
    (total * SHOTS + 0.5) as u64
}

fn table(sum: &TableauSum, report: &mut String) -> Result<(), Error> {
    line!(report, "\nplace    weight     total  lost              shots");
    let mut before = 0.0;
    for (place, total) in sum.table()? {
        let entry = sum.view(place)?;
        let shots = shots_to(total) - shots_to(before);
        line!(report, "{place:5}  {:.6}  {total:.6}  {:016x}  {shots:5}", entry.weight(), entry.loss());
        before = total;
    }
    Ok(())
}

fn picks(sum: &TableauSum, report: &mut String) -> Result<(), Error> {
    line!(report, "");
    for draw in [0.0, 0.5, 0.96, 0.98, 0.999] {
        line!(report, "draw {draw:.3} picks entry {}", sum.pick(draw)?);
    }
    Ok(())
}

/// For people: a line for each entry, with its place, its share in parts per million and its lost qubits.
fn page(sum: &TableauSum, report: &mut String) -> Result<(), Error> {
    line!(report, "\nthe page:\n{}", sum.page()?.trim_end());
    Ok(())
}

fn sheet(sum: &TableauSum, report: &mut String) -> Result<(), Error> {
    let text = sum.sheet()?;
    line!(report, "\nthe sheet, {} bytes:\n{}", text.len(), text.trim_end());
    let copy = TableauSum::read_sheet(&text)?;
    let dirty = if copy.is_dirty() { "dirty" } else { "not dirty" };
    let same = if copy.sheet()? == text { "the same" } else { "ANOTHER" };
    line!(report, "\nread back: {} entries, {dirty}; its sheet is {same}", copy.len());
    Ok(())
}

/// There is no qubit 3. The sum is as it was, and goes on.
fn refusal(sum: &mut TableauSum, report: &mut String) {
    let before = sum.clone();
    match sum.loss_channel(3, 0.02) {
        Ok(_) => line!(report, "\nloss_channel 3, 2%: ACCEPTED"),
        Err(e) => line!(report, "\nloss_channel 3, 2%: refused with {}, {e}", e.number()),
    }
    line!(report, "the store is {}", if *sum == before { "as it was" } else { "CHANGED" });
}
