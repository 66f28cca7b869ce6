//! A job whose state is in a file, so that a restart or a kill loses no attempt: a recipe to copy.
//!
//!     journal FILE done|busy|killed [POLICY]
//!
//! The file has the same bytes as those of `Journal` in Python and Go. It is written before each attempt
//! as if that had been killed, and after each one that failed; after a success it is removed.
use std::fs::{self, File, OpenOptions};
use std::io::{self, Write};
use std::os::fd::AsRawFd;
use std::os::unix::fs::MetadataExt;
use std::time::{Duration, Instant, SystemTime, UNIX_EPOCH};
use zsched::{Schedule, Turn};

const HEAD: &str = "zsched journal 1\n";
const NAMES: [&str; 7] = ["schedule", "state", "attempts", "ended", "begin", "at", "error"];

extern "C" {
    fn flock(file: i32, operation: i32) -> i32;
}

/// What the file has: the schedule's state, the number of attempts, when the last one ended, when the
/// next one begins, when it was written, and the last error.
struct Entry {
    schedule: Schedule,
    attempts: u64,
    ended: u64,
    begin: Option<u64>,
    at: u64,
    error: String,
}

fn unix_time() -> u64 {
    SystemTime::now().duration_since(UNIX_EPOCH).map_or(0, |it| it.as_nanos() as u64)
}

/// Returns a number without a sign or leading zeros.
fn number(word: &str) -> Option<u64> {
    word.parse().ok().filter(|it: &u64| it.to_string() == word)
}

/// Reads the bytes of a file, or returns why they are no entry of this policy.
fn read(bytes: &[u8], policy: &str) -> Result<Entry, &'static str> {
    let text = String::from_utf8_lossy(bytes);
    if text.is_empty() {
        return Err("empty");
    }
    match text.lines().next().and_then(|it| it.strip_prefix("zsched journal ")).and_then(number) {
        _ if HEAD.starts_with(&*text) => return Err("cut"),
        None => return Err("no journal"),
        Some(1) => {}
        Some(_) => return Err("another version"),
    }
    if !text.ends_with("\nend\n") {
        return Err("cut");
    }
    let body = text.strip_prefix(HEAD).and_then(|it| it.strip_suffix("end\n")).ok_or("no journal")?;
    let lines: Vec<&str> = body.split_terminator('\n').collect();
    let values: Option<Vec<&str>> =
        lines.iter().zip(NAMES).map(|(line, name)| line.strip_prefix(name)?.strip_prefix(' ')).collect();
    let values = values.filter(|it| it.len() == NAMES.len() && lines.len() == it.len()).ok_or("no journal")?;
    let words: Option<Vec<u64>> = values[1].split(' ').map(number).collect();
    let begin = if values[4] == "none" { Some(None) } else { number(values[4]).map(Some) };
    let numbers = (words, number(values[2]), number(values[3]), begin, number(values[5]));
    let (Some(words), Some(attempts), Some(ended), Some(begin), Some(at)) = numbers else { return Err("no journal") };
    if !body.bytes().all(|it| it == b'\n' || (b' '..=b'~').contains(&it)) {
        return Err("no journal");
    }
    if values[0] != policy {
        return Err("another policy");
    }
    let schedule = Schedule::resume(policy, &words).map_err(|_| "another version")?;
    Ok(Entry { schedule, attempts, ended, begin, at, error: values[6].to_owned() })
}

/// Writes the file whole, or leaves it as it is. An error has its name.
fn write(file: &str, entry: &Entry) -> Result<(), String> {
    let words: Vec<String> = entry.schedule.state().iter().map(u64::to_string).collect();
    let begin = entry.begin.map_or("none".to_owned(), |it| it.to_string());
    let printed = |it: char| if (' '..='~').contains(&it) { it } else { '?' };
    let error: String = entry.error.chars().take(200).map(printed).collect();
    let (text, state, new) = (entry.schedule.text(), words.join(" "), format!("{file}.new"));
    let lines = format!(
        "schedule {text}\nstate {state}\nattempts {}\nended {}\nbegin {begin}\nat {}\nerror {error}\nend\n",
        entry.attempts, entry.ended, entry.at
    );
    let written = File::create(&new).and_then(|mut it| {
        it.write_all((HEAD.to_owned() + &lines).as_bytes())?;
        it.sync_all()
    });
    let replaced = written.and_then(|()| fs::rename(&new, file));
    if replaced.is_err() {
        let _ = fs::remove_file(&new);
    }
    replaced.and_then(|()| sync_folder(file)).map_err(|fault| format!("zsched: journal {file}: {fault}"))
}

/// Makes sure that a name in the file's folder outlasts a power loss.
fn sync_folder(file: &str) -> io::Result<()> {
    File::open(fs::canonicalize(format!("{file}.lock"))?.parent().expect("a folder"))?.sync_all()
}

/// Returns the lock of the file, which the process holds until it is dropped.
fn lock(file: &str) -> io::Result<Option<File>> {
    let name = format!("{file}.lock");
    loop {
        let held = OpenOptions::new().create(true).truncate(false).write(true).open(&name)?;
        // SAFETY: the descriptor is open. 6 is LOCK_EX | LOCK_NB.
        if unsafe { flock(held.as_raw_fd(), 6) } != 0 {
            return Ok(None);
        }
        // A process that ended may have removed what was opened here.
        if fs::metadata(&name).is_ok_and(|it| held.metadata().is_ok_and(|other| it.ino() == other.ino())) {
            return Ok(Some(held));
        }
    }
}

/// Calls a job until it succeeds or its policy gives up, over restarts. An error has its code and its text.
/// A kill counts as the code `killed`.
fn call<T>(
    file: &str,
    policy: &str,
    killed: u64,
    job: impl FnMut() -> Result<T, (u64, String)>,
) -> Result<T, Box<dyn std::error::Error>> {
    let Some(held) = lock(file)? else { return Err(format!("zsched: journal {file}: in use").into()) };
    let ended = call_locked(file, policy, killed, job);
    if !fs::exists(file)? {
        fs::remove_file(format!("{file}.lock"))?;
    }
    drop(held);
    ended
}

fn call_locked<T>(
    file: &str,
    policy: &str,
    killed: u64,
    mut job: impl FnMut() -> Result<T, (u64, String)>,
) -> Result<T, Box<dyn std::error::Error>> {
    let mut it = match fs::read(file) {
        Ok(bytes) => read(&bytes, policy).map_err(|why| format!("zsched: journal {file}: {why}"))?,
        Err(fault) if fault.kind() == io::ErrorKind::NotFound => {
            let (schedule, at) = (Schedule::new(policy)?, unix_time());
            Entry { schedule, attempts: 0, ended: 0, begin: Some(0), at, error: String::new() }
        }
        Err(fault) => return Err(format!("zsched: journal {file}: {fault}").into()),
    };
    // A clock that was set back waits again, never less.
    let (start, since) = (Instant::now(), it.ended.saturating_add(unix_time().saturating_sub(it.at)));
    let elapsed = || since.saturating_add(start.elapsed().as_nanos() as u64);
    loop {
        let Some(begin) = it.begin else {
            return Err(format!("zsched: journal {file}: gave up after {} attempts: {}", it.attempts, it.error).into());
        };
        std::thread::sleep(Duration::from_nanos(begin.saturating_sub(elapsed())));
        let (began, before) = (elapsed(), it.schedule.clone());
        let plan = |schedule: &mut Schedule, ended, input| {
            let (began, ended) = (Duration::from_nanos(began), Duration::from_nanos(ended));
            let begin = schedule.plan(Turn { began, ended, input, ..Turn::default() })?;
            Ok::<_, zsched::Fault>(begin.map(|it| it.as_nanos() as u64))
        };
        (it.attempts, it.ended, it.at) = (it.attempts + 1, began, unix_time());
        it.begin = plan(&mut it.schedule, began, killed)?;
        it.error = format!("killed in attempt {}", it.attempts);
        write(file, &it)?;
        let (code, error) = match job() {
            Ok(value) => {
                fs::remove_file(file)?;
                sync_folder(file)?;
                return Ok(value);
            }
            Err(failed) => failed,
        };
        (it.schedule, it.ended, it.at) = (before, elapsed(), unix_time());
        it.begin = plan(&mut it.schedule, it.ended, code)?;
        it.error = error;
        write(file, &it)?;
        if it.begin.is_none() {
            return Err(it.error.into());
        }
    }
}

fn main() {
    let words: Vec<String> = std::env::args().skip(1).collect();
    let (file, what) = (words[0].as_str(), words[1].as_str());
    let policy = words.get(2).map_or("(spaced(10) && recurs(2))", |it| it);
    let ended = call(file, policy, 0, || {
        println!("attempt");
        match what {
            "killed" => std::process::exit(9),
            "busy" => Err((503, "busy".to_owned())),
            _ => Ok(()),
        }
    });
    println!("{}", ended.map_or_else(|it| it.to_string(), |()| "done".to_owned()));
}
