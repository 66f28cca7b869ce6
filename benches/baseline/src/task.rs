//! A job that runs: its state, its records, and its part of the report.

use crate::output::{put_number, Output};
use crate::plan::{Entry, Job, Mode, Outcome};
use crate::state::State;

struct Running {
    begun: u64,
    entry: Entry,
}

/// An attempt that has ended, with the output and decision of the schedule if it was stepped.
struct Record {
    begun: u64,
    ended: u64,
    outcome: Outcome,
    step: Option<(Output, Option<u64>)>,
}

enum Ending {
    Succeeded(u64),
    Failed(u64),
    Finished,
}

pub struct Task {
    pub number: usize,
    /// The moment that the task waits for, or None once it has ended.
    pub due: Option<u64>,
    name: String,
    mode: Mode,
    state: State,
    script: Vec<Entry>,
    running: Option<Running>,
    records: Vec<Record>,
    polls: u64,
    ending: Option<Ending>,
}

impl Task {
    pub fn new(number: usize, job: Job) -> Task {
        Task {
            number,
            due: Some(job.start),
            name: job.name,
            mode: job.mode,
            state: State::new(job.schedule),
            script: job.script,
            running: None,
            records: vec![],
            polls: 0,
            ending: None,
        }
    }

    fn begin(&mut self, now: u64) {
        let entry = self.script[self.records.len().min(self.script.len() - 1)];
        self.due = Some(now.saturating_add(entry.ms));
        self.running = Some(Running { begun: now, entry });
    }

    /// One poll, at the first tick at or after the moment that the task waits for.
    pub fn poll(&mut self, now: u64) {
        self.polls += 1;
        let Some(Running { begun, entry }) = self.running.take() else { return self.begin(now) };
        let outcome = entry.outcome;
        let (step, ending) = match (self.mode, outcome) {
            (Mode::Retry, Outcome::Ok(value)) => (None, Some(Ending::Succeeded(value))),
            (Mode::Repeat, Outcome::Err(code)) => (None, Some(Ending::Failed(code))),
            (Mode::Retry, Outcome::Err(input)) => {
                let step = self.state.step(now, input);
                let ending = step.1.is_none().then_some(Ending::Failed(input));
                (Some(step), ending)
            }
            (Mode::Repeat, Outcome::Ok(input)) => {
                let step = self.state.step(now, input);
                let ending = step.1.is_none().then_some(Ending::Finished);
                (Some(step), ending)
            }
        };
        let next = step.as_ref().and_then(|(_, next)| *next);
        self.records.push(Record { begun, ended: now, outcome, step });
        self.ending = ending;
        self.due = next;
        if next.is_some_and(|next| next <= now) {
            self.begin(now);
        }
    }

    /// The lines of the job, in its state at the horizon.
    pub fn put(&self, text: &mut Vec<u8>, horizon: u64) {
        put_word(text, "job ");
        put_word(text, &self.name);
        let mode = match self.mode {
            Mode::Retry => " retry\n",
            Mode::Repeat => " repeat\n",
        };
        put_word(text, mode);
        for (place, record) in self.records.iter().enumerate() {
            record.put(text, place as u64 + 1);
        }
        if let Some(running) = &self.running {
            put_begin(text, self.records.len() as u64 + 1, running.begun);
            put_word(text, " running\n");
        }
        self.put_end(text, horizon);
    }

    fn put_end(&self, text: &mut Vec<u8>, horizon: u64) {
        let last = self.records.last();
        match &self.ending {
            None => put_word(text, "end unfinished"),
            Some(Ending::Succeeded(value)) => put_word_and_number(text, "end succeeded ", *value),
            Some(Ending::Failed(code)) => put_word_and_number(text, "end failed ", *code),
            Some(Ending::Finished) => {
                put_word(text, "end finished ");
                if let Some(Record { step: Some((output, _)), .. }) = last {
                    output.put(text);
                }
            }
        }
        let at = last.filter(|_| self.ending.is_some()).map_or(horizon, |record| record.ended);
        put_word_and_number(text, " at ", at);
        put_word_and_number(text, " polls ", self.polls);
        put_word(text, "\n");
    }
}

impl Record {
    fn put(&self, text: &mut Vec<u8>, number: u64) {
        put_begin(text, number, self.begun);
        put_number(text, self.ended);
        match self.outcome {
            Outcome::Ok(value) => put_word_and_number(text, " ok ", value),
            Outcome::Err(code) => put_word_and_number(text, " err ", code),
        }
        put_word(text, "\n");
        let Some((output, next)) = &self.step else { return };
        put_word_and_number(text, "step ", number);
        put_word(text, " out ");
        output.put(text);
        match next {
            Some(next) => put_word_and_number(text, " next ", *next),
            None => put_word(text, " done"),
        }
        put_word(text, "\n");
    }
}

fn put_begin(text: &mut Vec<u8>, number: u64, begun: u64) {
    put_word_and_number(text, "attempt ", number);
    put_word_and_number(text, " ", begun);
    put_word(text, "..");
}

fn put_word(text: &mut Vec<u8>, word: &str) {
    text.extend_from_slice(word.as_bytes());
}

pub fn put_word_and_number(text: &mut Vec<u8>, word: &str, number: u64) {
    put_word(text, word);
    put_number(text, number);
}
