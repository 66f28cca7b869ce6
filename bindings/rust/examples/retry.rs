//! A real retry: a client calls a server on this machine until it is ready. It is busy at first.
use std::io::{Read, Write};
use std::net::{SocketAddr, TcpListener, TcpStream};
use std::thread;
use std::time::Instant;

const SCHEDULE: &str = "((exponential(20) || spaced(100)) && recurs(5))";

/// Sends "busy" to the first `busy` clients, and "ready" to the next one.
fn serve(listener: TcpListener, busy: usize) {
    for (number, client) in listener.incoming().enumerate() {
        let Ok(mut client) = client else { return };
        let text = if number < busy { "busy" } else { "ready" };
        if client.write_all(text.as_bytes()).is_err() || number == busy {
            return;
        }
    }
}

/// Returns the server's text, or the code 503 if it is busy, or 502 if it can't be reached.
fn fetch(server: SocketAddr) -> Result<String, u64> {
    let mut text = String::new();
    let mut client = TcpStream::connect(server).map_err(|_| 502_u64)?;
    client.read_to_string(&mut text).map_err(|_| 502_u64)?;
    if text == "busy" { Err(503) } else { Ok(text) }
}

fn main() -> Result<(), Box<dyn std::error::Error>> {
    let listener = TcpListener::bind(("127.0.0.1", 0))?;
    let server = listener.local_addr()?;
    let serving = thread::spawn(move || serve(listener, 3));
    let begun = Instant::now();
    let mut attempts = 0;
    let text = zsched::retry(SCHEDULE, |code| *code, || {
        attempts += 1;
        fetch(server)
    })
    .map_err(|failed| failed.to_string())?;
    println!("{text} after {attempts} attempts");
    assert_eq!((text.as_str(), attempts), ("ready", 4));
    assert!(begun.elapsed().as_millis() >= 140);
    serving.join().expect("the server ends");
    Ok(())
}
