//! The state of a leaf of a schedule.

use crate::schedule::Leaf;

pub enum LeafState {
    Forever { steps: u64 },
    Recurs { most: u64, steps: u64 },
    Spaced { delay: u64, steps: u64 },
    Fixed { period: u64, steps: u64, first: u64, run: u64 },
    Windowed { window: u64, steps: u64, first: u64 },
    Exponential { base: u64, factor: u64, next: u64 },
    Fibonacci { one: u64, next: u64, after: u64 },
    Linear { one: u64, next: u64 },
    Identity,
    Elapsed { first: Option<u64> },
}

/// The number of steps before; each step adds one.
fn count(steps: &mut u64) -> u64 {
    let before = *steps;
    *steps = before.saturating_add(1);
    before
}

/// A growing delay is also the output.
fn after(now: u64, delay: u64) -> (u64, Option<u64>) {
    (delay, Some(now.saturating_add(delay)))
}

impl LeafState {
    pub fn new(leaf: Leaf) -> LeafState {
        match leaf {
            Leaf::Forever => LeafState::Forever { steps: 0 },
            Leaf::Recurs(most) => LeafState::Recurs { most, steps: 0 },
            Leaf::Spaced(delay) => LeafState::Spaced { delay, steps: 0 },
            Leaf::Fixed(period) => LeafState::Fixed { period, steps: 0, first: 0, run: 0 },
            Leaf::Windowed(window) => LeafState::Windowed { window, steps: 0, first: 0 },
            Leaf::Exponential { base, factor } => LeafState::Exponential { base, factor, next: base },
            Leaf::Fibonacci(one) => LeafState::Fibonacci { one, next: one, after: one },
            Leaf::Linear(one) => LeafState::Linear { one, next: one },
            Leaf::Identity => LeafState::Identity,
            Leaf::Elapsed => LeafState::Elapsed { first: None },
        }
    }

    /// Resets the state. What the first step sets is unchanged.
    pub fn clear(&mut self) {
        match self {
            LeafState::Forever { steps } | LeafState::Recurs { steps, .. } => *steps = 0,
            LeafState::Spaced { steps, .. } => *steps = 0,
            LeafState::Fixed { steps, .. } | LeafState::Windowed { steps, .. } => *steps = 0,
            LeafState::Exponential { base, next, .. } => *next = *base,
            LeafState::Fibonacci { one, next, after } => (*next, *after) = (*one, *one),
            LeafState::Linear { one, next } => *next = *one,
            LeafState::Identity => {}
            LeafState::Elapsed { first } => *first = None,
        }
    }

    /// The number returned, and the moment at which the leaf continues unless it is done.
    pub fn step(&mut self, now: u64, input: u64) -> (u64, Option<u64>) {
        match self {
            LeafState::Forever { steps } => (count(steps), Some(now)),
            LeafState::Recurs { most, steps } => {
                let before = count(steps);
                (before, (before < *most).then_some(now))
            }
            LeafState::Spaced { delay, steps } => (count(steps), Some(now.saturating_add(*delay))),
            LeafState::Fixed { period, steps, first, run } => {
                let before = count(steps);
                if before == 0 {
                    *first = now;
                    *run = now.saturating_add(*period);
                } else if *period == 0 || now > run.saturating_add(*period) {
                    *run = now;
                } else {
                    *run = now.saturating_add(*period - (now - *first) % *period);
                }
                (before, Some(*run))
            }
            LeafState::Windowed { window, steps, first } => {
                let before = count(steps);
                if before == 0 {
                    *first = now;
                }
                (before, Some(now.saturating_add(*window - (now - *first) % *window)))
            }
            LeafState::Exponential { factor, next, .. } => {
                let delay = *next;
                *next = delay.saturating_mul(*factor);
                after(now, delay)
            }
            LeafState::Fibonacci { next, after: second, .. } => {
                let delay = *next;
                (*next, *second) = (*second, delay.saturating_add(*second));
                after(now, delay)
            }
            LeafState::Linear { one, next } => {
                let delay = *next;
                *next = delay.saturating_add(*one);
                after(now, delay)
            }
            LeafState::Identity => (input, Some(now)),
            LeafState::Elapsed { first } => (now - *first.get_or_insert(now), Some(now)),
        }
    }
}
