//! Plans: JSON, shapes, ranges, and the texts of their faults.

use crate::reader;
use crate::schedule::Schedule;
use serde_json::{Map, Value};
use std::collections::HashSet;

pub const LONGEST: usize = 16_777_216;
const LAST_MOMENT: u64 = 999_999_999_999_999;
const MOST_TICKS: usize = 1_000_000;
const MOST_JOBS: usize = 10_000;
const MOST_ENTRIES: usize = 1_000;

const SHAPE: &str = "wrong shape";
const UNKNOWN_KEY: &str = "unknown key";
const RANGE: &str = "out of range";

#[derive(Clone, Copy)]
pub enum Mode {
    Retry,
    Repeat,
}

#[derive(Clone, Copy)]
pub enum Outcome {
    Ok(u64),
    Err(u64),
}

/// An entry of a script: how long an attempt takes, and how it ends.
#[derive(Clone, Copy)]
pub struct Entry {
    pub ms: u64,
    pub outcome: Outcome,
}

pub struct Job {
    pub name: String,
    pub mode: Mode,
    pub schedule: Schedule,
    pub start: u64,
    pub script: Vec<Entry>,
}

pub enum Clock {
    EveryMs(u64),
    Ticks(Vec<u64>),
}

impl Clock {
    pub fn horizon(&self) -> u64 {
        match self {
            Clock::EveryMs(horizon) => *horizon,
            Clock::Ticks(ticks) => ticks.last().copied().unwrap_or(0),
        }
    }

    /// The first tick at or after a moment.
    pub fn tick(&self, due: u64) -> Option<u64> {
        match self {
            Clock::EveryMs(horizon) => (due <= *horizon).then_some(due),
            Clock::Ticks(ticks) => ticks.get(ticks.partition_point(|tick| *tick < due)).copied(),
        }
    }

    fn is_in_range(&self) -> bool {
        match self {
            Clock::EveryMs(horizon) => *horizon <= LAST_MOMENT,
            Clock::Ticks(ticks) => {
                let last = ticks.last().is_some_and(|tick| *tick <= LAST_MOMENT);
                last && ticks.len() <= MOST_TICKS && ticks.is_sorted_by(|one, next| one < next)
            }
        }
    }
}

pub struct Plan {
    pub clock: Clock,
    pub workers: usize,
    pub grain: usize,
    pub jobs: Vec<Job>,
}

type Object = Map<String, Value>;

fn take_text(object: &mut Object, key: &str) -> Result<String, &'static str> {
    match object.remove(key) {
        Some(Value::String(text)) => Ok(text),
        _ => Err(SHAPE),
    }
}

fn take_list(object: &mut Object, key: &str) -> Result<Vec<Value>, &'static str> {
    match object.remove(key) {
        Some(Value::Array(list)) => Ok(list),
        _ => Err(SHAPE),
    }
}

fn take_number(object: &mut Object, key: &str) -> Result<Option<u64>, &'static str> {
    match object.remove(key) {
        None => Ok(None),
        Some(value) => value.as_u64().map(Some).ok_or(SHAPE),
    }
}

fn take_clock(document: &mut Object) -> Result<Clock, &'static str> {
    let horizon = take_number(document, "horizon")?;
    if !document.contains_key("ticks") {
        return horizon.map(Clock::EveryMs).ok_or(SHAPE);
    }
    let ticks = take_list(document, "ticks")?;
    let ticks: Option<Vec<u64>> = ticks.iter().map(Value::as_u64).collect();
    match (horizon, ticks) {
        (None, Some(ticks)) => Ok(Clock::Ticks(ticks)),
        _ => Err(SHAPE),
    }
}

/// The document without its jobs, and the jobs.
fn read_document(tree: Value) -> Result<(Plan, Vec<Value>), &'static str> {
    let Value::Object(mut document) = tree else { return Err(SHAPE) };
    let clock = take_clock(&mut document)?;
    let workers = take_number(&mut document, "workers")?.unwrap_or(1);
    let grain = take_number(&mut document, "grain")?.unwrap_or(1);
    let jobs = take_list(&mut document, "jobs")?;
    if !document.is_empty() {
        return Err(UNKNOWN_KEY);
    }
    let cut_fits = (1..=64).contains(&workers) && (1..=10_000).contains(&grain);
    if !clock.is_in_range() || !cut_fits || jobs.len() > MOST_JOBS {
        return Err(RANGE);
    }
    let plan = Plan { clock, workers: workers as usize, grain: grain as usize, jobs: vec![] };
    Ok((plan, jobs))
}

/// An entry, and whether it has no other keys.
fn read_entry(value: &Value) -> Option<(Entry, bool)> {
    let object = value.as_object()?;
    let ms = object.get("ms")?.as_u64()?;
    let outcome = match (object.get("ok"), object.get("err")) {
        (Some(value), None) => Outcome::Ok(value.as_u64()?),
        (None, Some(code)) => Outcome::Err(code.as_u64()?),
        _ => return None,
    };
    Some((Entry { ms, outcome }, object.len() == 2))
}

fn check_name(name: &str) -> Result<(), &'static str> {
    let fits = |byte: u8| byte.is_ascii_alphanumeric() || matches!(byte, b'-' | b'_' | b'.');
    if (1..=64).contains(&name.len()) && name.bytes().all(fits) {
        Ok(())
    } else {
        Err("bad name")
    }
}

fn check_script(script: &[Entry]) -> Result<(), &'static str> {
    if script.is_empty() {
        return Err("script: empty");
    }
    if script.len() > MOST_ENTRIES {
        return Err("script: more than 1000 entries");
    }
    if script.iter().any(|entry| entry.ms == 0) {
        return Err("script: an entry takes 0 ms");
    }
    Ok(())
}

fn read_job(value: Value, names: &mut HashSet<String>) -> Result<Job, String> {
    let Value::Object(mut job) = value else { return Err(SHAPE.into()) };
    let name = take_text(&mut job, "name")?;
    let mode = take_text(&mut job, "mode")?;
    let schedule = take_text(&mut job, "schedule")?;
    let start = take_number(&mut job, "start")?.unwrap_or(0);
    let entries = take_list(&mut job, "script")?;
    let entries: Option<Vec<(Entry, bool)>> = entries.iter().map(read_entry).collect();
    let entries = entries.ok_or(SHAPE)?;
    if !job.is_empty() || !entries.iter().all(|(_, known)| *known) {
        return Err(UNKNOWN_KEY.into());
    }
    let mode = match mode.as_str() {
        "retry" => Mode::Retry,
        "repeat" => Mode::Repeat,
        _ => return Err(RANGE.into()),
    };
    check_name(&name)?;
    if !names.insert(name.clone()) {
        return Err("name used before".into());
    }
    let schedule = reader::read(&schedule).map_err(|fault| format!("schedule: {fault}"))?;
    let script: Vec<Entry> = entries.into_iter().map(|(entry, _)| entry).collect();
    check_script(&script)?;
    Ok(Job { name, mode, schedule, start, script })
}

/// The plan of these bytes, or the text of its fault.
pub fn read(bytes: &[u8]) -> Result<Plan, String> {
    if bytes.len() > LONGEST {
        return Err(format!("plan is longer than {LONGEST} bytes"));
    }
    let tree = serde_json::from_slice(bytes).map_err(|_| "plan is not JSON")?;
    let (mut plan, jobs) = read_document(tree).map_err(|fault| format!("plan: {fault}"))?;
    let mut names = HashSet::with_capacity(jobs.len());
    plan.jobs.reserve_exact(jobs.len());
    for (number, value) in jobs.into_iter().enumerate() {
        let job = read_job(value, &mut names).map_err(|fault| format!("job {number}: {fault}"))?;
        plan.jobs.push(job);
    }
    Ok(plan)
}
