//! The calls of examples/c/every_call.c, made from Rust, give its stored lines: every call, every number, and circuits.

use std::fmt::Write;
use tableau_sum::{Circuit, Counts, Error, Lost, Outcome, Size, Step, TableauSum, MAX_COEFFICIENTS, MAX_QUBITS};

const SIZE: Size = Size { n: 2, k: 2, capacity: 64 };

/// A digest of words, as every_call.c makes it.
fn digest(words: impl IntoIterator<Item = u64>) -> u64 {
    words.into_iter().fold(0, |digest: u64, word| {
        let mixed = (digest ^ word).wrapping_mul(0x100_0000_01b3);
        mixed ^ mixed >> 32
    })
}
fn store_digest(sum: &TableauSum) -> u64 {
    digest(sum.words().iter().copied())
}

/// What a line tells besides the call: a field that a call has no use for is 0.
#[derive(Default)]
struct Told {
    outcome: Outcome,
    place: usize,
    length: usize,
    count: usize,
    dirty: bool,
    digest: u64,
}

struct Report {
    lines: String,
}

impl Report {
    fn tell(&mut self, call: &str, number: u64, t: Told) {
        let Counts { merged, stored, dropped, compared } = t.outcome.counts;
        let [weight, cut] = [t.outcome.lost.dropped, t.outcome.lost.truncated].map(f64::to_bits);
        let Told { place, length, count, digest, .. } = t;
        let dirty = t.dirty as u8;
        write!(self.lines, "{call} {number} {merged} {stored} {dropped} {compared} {weight:016x} {cut:016x} ").unwrap();
        writeln!(self.lines, "{place} {length} {count} {dirty} {digest:016x}").unwrap();
    }

    /// A call that changes the sum.
    fn changed(&mut self, call: &str, sum: &TableauSum, outcome: Outcome) {
        let told = Told { outcome, count: sum.len(), dirty: sum.is_dirty(), digest: store_digest(sum), ..Told::default() };
        self.tell(call, 0, told);
    }

    /// A call that looks at it, with a digest of what it shows.
    fn looked(&mut self, call: &str, sum: &TableauSum, place: usize, length: usize, digest: u64) {
        self.tell(call, 0, Told { place, length, count: sum.len(), dirty: sum.is_dirty(), digest, ..Told::default() });
    }

    /// A refused call: the sum is as it was.
    fn refused<T: std::fmt::Debug>(&mut self, call: &str, sum: &TableauSum, outcome: Result<T, Error>) {
        let told = Told { count: sum.len(), dirty: sum.is_dirty(), digest: store_digest(sum), ..Told::default() };
        self.tell(call, outcome.unwrap_err().number(), told);
    }

    /// A refused beginning has a header of zeros; C lends it the store that stands.
    fn refused_to_begin(&mut self, call: &str, sum: &TableauSum, outcome: Result<TableauSum, Error>) {
        self.tell(call, outcome.unwrap_err().number(), Told { digest: store_digest(sum), ..Told::default() });
    }

    /// A sum begins.
    fn fresh(&mut self, size: Size, cutoff: f64) -> TableauSum {
        let sum = TableauSum::fresh(size, 0.5, cutoff).unwrap();
        self.changed("fresh", &sum, Outcome::default());
        sum
    }
}

fn rates() -> [f64; 15] {
    std::array::from_fn(|i| (i + 1) as f64 / 256.0)
}

fn channels(report: &mut Report) -> TableauSum {
    let mut sum = report.fresh(SIZE, 0.0);
    let mut make = |call: &str, outcome: &dyn Fn(&mut TableauSum) -> Result<Outcome, Error>| {
        let outcome = outcome(&mut sum).unwrap();
        report.changed(call, &sum, outcome);
    };
    let none = |()| Outcome::default();
    make("pauli_error", &|s| s.pauli_error(0, [0.25, 0.125, 0.0625]));
    make("loss_channel", &|s| s.loss_channel(1, 0.5));
    make("depolarize1", &|s| s.depolarize1(0, 0.1875));
    make("h", &|s| s.h(0).map(none));
    make("s", &|s| s.s(1).map(none));
    make("cnot", &|s| s.cnot(0, 1).map(none));
    make("two_qubit_pauli_error", &|s| s.two_qubit_pauli_error(1, 0, rates()));
    make("depolarize2", &|s| s.depolarize2(0, 1, 0.25));
    make("reset_loss_channel", &|s| s.reset_loss_channel(1));
    sum
}

fn looks(report: &mut Report, sum: &TableauSum) -> Result<(), Error> {
    let table = sum.table()?;
    let words = table.iter().flat_map(|&(place, total)| [place as u64, total.to_bits()]);
    report.looked("table", sum, 0, 2 * table.len(), digest(words));
    report.looked("pick", sum, sum.pick(0.75)?, 0, 0);
    let view = sum.view(3)?;
    report.looked("view", sum, 0, view.words().len(), digest(view.words().iter().copied()));
    writeln!(report.lines, "view_word {:016x} {:016x}", sum.view_word(3, 3), sum.view_word(3, view.words().len())).unwrap();
    assert_eq!(view.phase_loss_key(), sum.view_word(3, 3));
    let text = sum.page()?;
    report.looked("write_page", sum, 0, text.len(), digest(text.bytes().map(u64::from)));
    Ok(())
}

/// Writes a float's bits as the field that begins at this byte.
fn put_field(text: &mut [u8], at: usize, x: f64) {
    text[at..at + 21].copy_from_slice(format!("{:21}", x.to_bits()).as_bytes());
}

fn sheet(report: &mut Report, sum: &TableauSum) -> Result<(TableauSum, Vec<u8>), Error> {
    let mut text = sum.sheet()?.into_bytes();
    report.looked("write_sheet", sum, 0, text.len(), digest(text.iter().map(|&b| b.into())));
    put_field(&mut text, 105, 1.0 / 32.0);
    put_field(&mut text, 127, 2.0);
    let mut sum = TableauSum::read_sheet(&text)?;
    report.changed("read_sheet", &sum, Outcome::default());
    sum.normalise()?;
    report.changed("normalise", &sum, Outcome::default());
    let lost = sum.truncate()?;
    report.changed("truncate", &sum, Outcome { lost, ..Outcome::default() });
    Ok((sum, text))
}

fn refusals(report: &mut Report, sum: &mut TableauSum, mut text: Vec<u8>) {
    report.refused_to_begin("fresh", sum, TableauSum::fresh(Size { n: MAX_QUBITS + 1, ..SIZE }, 0.5, 0.0));
    report.refused_to_begin("fresh", sum, TableauSum::fresh(Size { k: MAX_COEFFICIENTS + 1, capacity: 16, ..SIZE }, 0.5, 0.0));
    report.refused_to_begin("fresh", sum, TableauSum::fresh(SIZE, 0.5, f64::NAN));
    let outcome = sum.h(SIZE.n);
    report.refused("h", sum, outcome);
    let outcome = sum.cnot(1, 1);
    report.refused("cnot", sum, outcome);
    report.refused("view", sum, sum.view(sum.len()));
    let outcome = sum.pauli_error(0, [0.5; 3]);
    report.refused("pauli_error", sum, outcome);
    put_field(&mut text, 127, 1025.0);
    report.refused_to_begin("read_sheet", sum, TableauSum::read_sheet(&text));
    report.refused_to_begin("read_sheet", sum, TableauSum::read_sheet(&text[..text.len() - 1]));
    report.refused("write_sheet", sum, sum.write_sheet(&mut text[..126]));
    report.refused("write_page", sum, sum.write_page(&mut text[..35 * sum.len() - 1]));
    report.refused("pick", sum, sum.pick(1.0));
}

fn last_refusals(report: &mut Report) {
    let mut full = report.fresh(Size { capacity: 1, ..SIZE }, 0.0);
    let outcome = full.loss_channel(0, 1.0);
    report.refused("loss_channel", &full, outcome);
    let empty = report.fresh(SIZE, 1.0);
    report.refused("table", &empty, empty.table());
    report.refused("pick", &empty, empty.pick(0.0));
}

/// A circuit on the sum of a sheet: a line for it, and one for each call that was made. A refused one leaves the sum as the last one did.
fn circuit(report: &mut Report, text: &[u8], circuit: &Circuit, names: &[&str], stop: bool) {
    let mut sum = TableauSum::read_sheet(text).unwrap();
    report.changed("read_sheet", &sum, Outcome::default());
    let mut last = Step { counts: Counts::default(), lost: Lost::default(), entries: sum.len(), dirty: sum.is_dirty() };
    let run = if stop { sum.run_until_refused(circuit) } else { sum.run(circuit) };
    let (made, count, dirty) = (run.made(), sum.len(), sum.is_dirty() as u8);
    writeln!(report.lines, "run_calls 0 {made} {count} {dirty} {:016x}", store_digest(&sum)).unwrap();
    for (name, given) in names.iter().zip(&run) {
        let (number, outcome) = match given {
            Ok(step) => (0, Outcome { counts: step.counts, lost: step.lost }),
            Err(e) => (e.number(), Outcome::default()),
        };
        last = given.unwrap_or(last);
        report.tell(name, number, Told { outcome, count: last.entries, dirty: last.dirty, ..Told::default() });
    }
}

fn circuits(report: &mut Report, text: &[u8]) {
    let mut calls = Circuit::new();
    calls.normalise().truncate().h(0).cnot(0, 1).pauli_error(0, [0.25, 0.125, 0.0625]).loss_channel(1, 0.25).cnot(1, 1);
    calls.two_qubit_pauli_error(1, 0, rates()).depolarize2(0, 1, 0.25).pauli_error(0, [0.5; 3]).s(1).depolarize1(0, 0.1875);
    calls.loss_channel(0, 0.875).reset_loss_channel(1).h(SIZE.n);
    let names =
        "normalise truncate h cnot pauli_error loss_channel cnot two_qubit_pauli_error depolarize2 pauli_error s depolarize1 loss_channel \
                 reset_loss_channel h";
    let names: Vec<&str> = names.split(' ').collect();
    assert_eq!(names.len(), calls.len());
    circuit(report, text, &calls, &names, false);
    circuit(report, text, &calls, &names, true);
    calls.clear();
    circuit(report, text, &calls, &names, false);
}

#[test]
fn gives_what_c_is_given() {
    let mut report = Report { lines: String::new() };
    let sum = channels(&mut report);
    looks(&mut report, &sum).unwrap();
    let (mut sum, text) = sheet(&mut report, &sum).unwrap();
    refusals(&mut report, &mut sum, text.clone());
    last_refusals(&mut report);
    circuits(&mut report, &text);
    report.fresh(SIZE, 0.0);
    // What is left are lists that show something or do not fit: no circuit does.
    let stored = include_str!("../../../examples/c/every_call.stdout");
    assert_eq!(Some(report.lines.as_str()), stored.find("\nrun ").map(|end| &stored[..=end]));
}
