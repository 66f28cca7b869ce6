//! Prints the nanoseconds of a call that doesn't fail by backoff.
use backoff::{retry, Error, ExponentialBackoff};
use std::hint::black_box;
use std::time::Instant;

fn main() {
    let count: u64 = std::env::args().nth(1).and_then(|it| it.parse().ok()).expect("a number");
    let time = |_| {
        let begun = Instant::now();
        for number in 0..count {
            let found = retry(ExponentialBackoff::default(), || Ok::<u64, Error<u64>>(black_box(number)));
            assert_eq!(found.ok(), Some(number));
        }
        begun.elapsed().as_nanos() / u128::from(count)
    };
    println!("backoff {}", (0..15).map(time).min().expect("a run"));
}
