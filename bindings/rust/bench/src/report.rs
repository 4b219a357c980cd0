//! The table.

use std::fmt::{self, Write as _};
use std::fs;

use crate::book::cores;
use crate::measure::Row;
use crate::orders::Orders;
use crate::stack::Stack;

/// All that was measured.
pub struct Report {
    /// The rows of the first table.
    pub rows: Vec<Row>,
    /// Completions without a filling, by the count of fillings: hopeless from the
    /// start, and not caught by the test.
    pub growth: Vec<(usize, Row, Row)>,
    /// Pooling by the number of lines.
    pub pools: Vec<(usize, Row)>,
    /// A book of orders beside `sort`.
    pub orders: Orders,
    /// The stack used.
    pub stack: Vec<Stack>,
}

impl Report {
    /// The report in Markdown, with the chart if it has a name.
    pub fn markdown(&self, chart: Option<&str>) -> String {
        let mut text = String::new();
        // Writing to a string never fails.
        let _ = self.write(&mut text, chart);
        text
    }

    fn write(&self, text: &mut String, chart: Option<&str>) -> fmt::Result {
        text.push_str(HEAD);
        writeln!(text, "\nMachine: {} cores, {}.\n", cores(), processor())?;
        text.push_str("| | library, ns | second, ns | ratio | goal | |\n");
        text.push_str("|---|--:|--:|--:|--:|---|\n");
        for row in &self.rows {
            let own = row.own_ratio().map(|ratio| format!("{ratio:.2}, "));
            writeln!(
                text,
                "| {} | {} | {} | {:.2} | {} | {}{} |",
                row.name,
                number(row.library),
                number(row.reference),
                row.ratio(),
                row.goal,
                own.unwrap_or_default(),
                row.outcome()
            )?;
        }
        if let Some(chart) = chart {
            writeln!(text, "\n![Nanoseconds of both]({chart})")?;
        }
        self.write_growth(text)?;
        self.write_pools(text)?;
        self.orders.write(text)?;
        self.write_stack(text)
    }

    fn write_growth(&self, text: &mut String) -> fmt::Result {
        text.push_str(GROWTH);
        for (fillings, caught, uncaught) in &self.growth {
            write!(text, "| {fillings} |")?;
            for row in [caught, uncaught] {
                let (library, reference) = (number(row.library), number(row.reference));
                write!(text, " {library} | {reference} | {:.2} |", row.ratio())?;
            }
            writeln!(text)?;
        }
        Ok(())
    }

    fn write_pools(&self, text: &mut String) -> fmt::Result {
        text.push_str(POOLS);
        for (lines, row) in &self.pools {
            let (library, reference) = (number(row.library), number(row.reference));
            let ratio = row.ratio();
            writeln!(text, "| {lines} | {library} | {reference} | {ratio:.2} |")?;
        }
        Ok(())
    }

    fn write_stack(&self, text: &mut String) -> fmt::Result {
        text.push_str(STACK);
        for row in &self.stack {
            writeln!(
                text,
                "| {} | {} | {} |",
                row.name, row.library, row.reference
            )?;
        }
        Ok(())
    }
}

const HEAD: &str = "# Benchmarks

The library, and the second implementation in plain Rust, in one run on the same
inputs, both built for release. Each figure is the least of many batches, those of
both in turn; a row has 256 inputs, all different, and every batch begins with
another. The ratio is library to second implementation: below 1 the library is
faster; it varies by about 0.1 from run to run. Made by `make bench`.

Of a hopeless draft no filling keeps the rules. It is hopeless from the start if the
pretest names a rule: rule 28 in the row that says so, rule 22 in the row \"complete,
hopeless, 1,056 fillings\". It is not caught by the test if the pretest names none;
those in the table have 1,056 fillings, too. The book of which half is hopeless from
the start has 100,000 drafts and is completed on one core. A goal that is a part of
\"nothing blank\" is a part of the library's own time in that row with the same record;
that ratio stands right of it.

A completion skips statuses whole: at count 97 one, at count 433 nine. The rows that begin
with \"quick\" have the same function of the library's, beside the second implementation's
quick search. Taking up has a copy of the draft for each call, on both sides. MT103 lines
have codes of each length; they are written into one buffer and read into one sheet.
The messages of both parties are two for each field, the client's and the adviser's, with
equal revisions and other texts, in any order.

Checks and completions are at the date 20240101 with the given record, and in the rows
with another record at 20240115 with 20231002, 20240102 and 20231230, on the same
inputs; both records allow the same 22 statuses.
";

const GROWTH: &str = "
## How the cost grows with the fillings

Completions that find none, by the count of all fillings: on the left drafts hopeless
from the start (rule 22), on the right those that are not caught by the test.

| fillings | library, ns | second, ns | ratio | not caught: library, ns | second, ns | ratio |
|--:|--:|--:|--:|--:|--:|--:|
";

const POOLS: &str = "
## How the cost of pooling grows with the lines

Registers whose lines have different INNs, into one output that is not cleared between
calls.

| lines | library, ns | second, ns | ratio |
|--:|--:|--:|--:|
";

const STACK: &str = "
## Stack

The depth to which a call touches the stack, in bytes.

| | library | second |
|---|--:|--:|
";

/// One decimal for small numbers, none for larger.
fn number(value: f64) -> String {
    if value < 100.0 {
        format!("{value:.1}")
    } else {
        format!("{value:.0}")
    }
}

/// The processor's model, where the system tells it.
fn processor() -> String {
    let told = fs::read_to_string("/proc/cpuinfo").unwrap_or_default();
    let model = told.lines().find_map(|line| {
        let (key, value) = line.split_once(':')?;
        (key.trim() == "model name").then(|| value.trim().to_owned())
    });
    model.unwrap_or_else(|| "processor unknown".into())
}
