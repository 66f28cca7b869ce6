//! A retry under tokio: a client calls a server on this machine, which is busy at first, and blocks
//! no thread while it waits.
use std::net::SocketAddr;
use std::sync::atomic::{AtomicUsize, Ordering::Relaxed};
use std::sync::Arc;
use std::time::{Duration, Instant};
use tokio::io::{AsyncReadExt, AsyncWriteExt};
use tokio::net::{TcpListener, TcpStream};
use zsched::{Budget, Retry};

const SCHEDULE: &str = "((exponential(20) || spaced(100)) && recurs(5))";
const BUSY: usize = 3;
static BUDGET: Budget = Budget::new(10.0, 0.5);

/// Sends "busy" to the first `BUSY` clients, and "ready" to the next one.
async fn serve(listener: TcpListener) -> std::io::Result<()> {
    for number in 0..=BUSY {
        let (mut client, _) = listener.accept().await?;
        client.write_all(if number < BUSY { b"busy" } else { b"ready" }).await?;
    }
    Ok(())
}

/// Returns the server's text, or the code 503 if it is busy, or 502 if it can't be reached.
async fn fetch(server: SocketAddr) -> Result<String, u64> {
    let mut text = String::new();
    let mut client = TcpStream::connect(server).await.map_err(|_| 502_u64)?;
    client.read_to_string(&mut text).await.map_err(|_| 502_u64)?;
    if text == "busy" { Err(503) } else { Ok(text) }
}

#[tokio::main(flavor = "current_thread")]
async fn main() -> Result<(), Box<dyn std::error::Error>> {
    let listener = TcpListener::bind(("127.0.0.1", 0)).await?;
    let server = listener.local_addr()?;
    let serving = tokio::spawn(serve(listener));
    let (start, attempts) = (Instant::now(), Arc::new(AtomicUsize::new(0)));
    let counted = attempts.clone();
    // A task of its own: the future of a retry is Send.
    let retrying = tokio::spawn(async move {
        let attempt = || {
            counted.fetch_add(1, Relaxed);
            fetch(server)
        };
        Retry::new(SCHEDULE)?.input_of(|code| *code).budget(&BUDGET).call_async(attempt, tokio::time::sleep).await
    });
    let (text, attempts) = (retrying.await?.map_err(|failed| failed.to_string())?, attempts.load(Relaxed));
    println!("{text} after {attempts} attempts");
    assert_eq!((text.as_str(), attempts, BUDGET.tokens()), ("ready", BUSY + 1, 7.5));
    assert!(start.elapsed().as_millis() >= 140);
    // Ten seconds of waits would be too long: a timeout drops the retry.
    let never = Retry::new("spaced(10000)")?;
    let retrying = never.call_async(|| async { Err::<(), u64>(503) }, tokio::time::sleep);
    assert!(tokio::time::timeout(Duration::from_millis(20), retrying).await.is_err());
    serving.await??;
    Ok(())
}
