//! The behaviour of `zsched` in plain Rust: reads a plan on standard input and writes its report.
//!
//! It stores what `zsched` stores, a record of each attempt with its output, and writes the report at the end of the
//! run. It returns faults as texts, since no caller inspects them. If it runs out of memory, it aborts.

mod kind;
mod leaf;
mod output;
mod plan;
mod reader;
mod run;
mod schedule;
mod state;
mod task;
mod tokens;

use std::io::{Read, Write};
use std::process::ExitCode;

fn refuse(text: &str, status: u8) -> ExitCode {
    eprintln!("zsched: {text}");
    status.into()
}

/// Writes all bytes, or returns the number of bytes written.
fn write(bytes: &[u8]) -> Result<(), usize> {
    let mut output = std::io::stdout().lock();
    let mut sent = 0;
    while sent < bytes.len() {
        match output.write(&bytes[sent..]) {
            Ok(more) if more > 0 => sent += more,
            _ => return Err(sent),
        }
    }
    output.flush().map_err(|_| sent)
}

fn main() -> ExitCode {
    let mut bytes = vec![];
    let input = std::io::stdin().lock();
    if input.take(plan::LONGEST as u64 + 1).read_to_end(&mut bytes).is_err() {
        return refuse("read failed", 3);
    }
    let plan = match plan::read(&bytes) {
        Ok(plan) => plan,
        Err(text) => return refuse(&text, 2),
    };
    drop(bytes);
    match write(&run::run(plan)) {
        Ok(()) => ExitCode::SUCCESS,
        Err(sent) => refuse(&format!("write failed after {sent} bytes"), 3),
    }
}
