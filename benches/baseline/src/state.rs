//! The state of a schedule, stepped in place.

use crate::leaf::LeafState;
use crate::output::Output;
use crate::schedule::{Function, Operator, Pick, Schedule, Test};
use std::sync::Arc;

/// An output, and the moment at which the schedule continues unless it is done.
pub type Answer = (Output, Option<u64>);

pub enum State {
    Leaf(LeafState),
    Both(Box<(State, State)>),
    Either(Box<(State, State)>),
    AndThen {
        second: bool,
        parts: Box<(State, State)>,
    },
    WhileInput(Box<State>, Test),
    WhileOutput(Box<State>, Pick, Test),
    /// The next step appends the output of a step to the list. By then the list that was returned before is mostly
    /// dropped, and this one can grow in place.
    CollectAll {
        part: Box<State>,
        items: Arc<Vec<Output>>,
        last: Option<Output>,
    },
    Map(Box<State>, Function),
    ResetWhen(Box<State>, Pick, Test),
}

impl State {
    pub fn new(schedule: Schedule) -> State {
        let boxed = |part: Box<Schedule>| Box::new(State::new(*part));
        match schedule {
            Schedule::Leaf(leaf) => State::Leaf(LeafState::new(leaf)),
            Schedule::Join(operator, left, right) => {
                let parts = Box::new((State::new(*left), State::new(*right)));
                match operator {
                    Operator::Both => State::Both(parts),
                    Operator::Either => State::Either(parts),
                    Operator::AndThen => State::AndThen { second: false, parts },
                }
            }
            Schedule::WhileInput(part, test) => State::WhileInput(boxed(part), test),
            Schedule::WhileOutput(part, pick, test) => State::WhileOutput(boxed(part), pick, test),
            Schedule::CollectAll(part) => State::CollectAll { part: boxed(part), items: Arc::default(), last: None },
            Schedule::Map(part, function) => State::Map(boxed(part), function),
            Schedule::ResetWhen(part, pick, test) => State::ResetWhen(boxed(part), pick, test),
        }
    }

    /// Resets the state.
    fn clear(&mut self) {
        match self {
            State::Leaf(leaf) => leaf.clear(),
            State::Both(parts) | State::Either(parts) => {
                parts.0.clear();
                parts.1.clear();
            }
            State::AndThen { second, parts } => {
                *second = false;
                parts.0.clear();
                parts.1.clear();
            }
            State::WhileInput(part, _) | State::WhileOutput(part, _, _) => part.clear(),
            State::CollectAll { part, items, last } => {
                part.clear();
                *items = Arc::default();
                *last = None;
            }
            State::Map(part, _) | State::ResetWhen(part, _, _) => part.clear(),
        }
    }

    pub fn step(&mut self, now: u64, input: u64) -> Answer {
        match self {
            State::Leaf(leaf) => {
                let (number, next) = leaf.step(now, input);
                (Output::Number(number), next)
            }
            State::Both(parts) => {
                let (outputs, left, right) = step_both(parts, now, input);
                (outputs, left.zip(right).map(|(left, right)| left.max(right)))
            }
            State::Either(parts) => {
                let (outputs, left, right) = step_both(parts, now, input);
                (outputs, left.into_iter().chain(right).min())
            }
            State::AndThen { second, parts } => step_and_then(second, parts, now, input),
            State::WhileInput(part, test) => {
                let (output, next) = part.step(now, input);
                (output, next.filter(|_| test.accepts(input)))
            }
            State::WhileOutput(part, pick, test) => {
                let (output, next) = part.step(now, input);
                let accepted = test.accepts(output.picked(*pick));
                (output, next.filter(|_| accepted))
            }
            State::CollectAll { part, items, last } => {
                if let Some(output) = last.take() {
                    Arc::make_mut(items).push(output);
                }
                let (output, next) = part.step(now, input);
                *last = next.is_some().then_some(output);
                (Output::Items(items.clone(), [0; 3]), next)
            }
            State::Map(part, function) => {
                let (output, next) = part.step(now, input);
                (output.map(*function), next)
            }
            State::ResetWhen(part, pick, test) => {
                let answer = part.step(now, input);
                if !test.accepts(answer.0.picked(*pick)) {
                    return answer;
                }
                part.clear();
                part.step(now, input)
            }
        }
    }
}

/// The pair of both outputs, and both decisions.
fn step_both(parts: &mut (State, State), now: u64, input: u64) -> (Output, Option<u64>, Option<u64>) {
    let (left, left_next) = parts.0.step(now, input);
    let (right, right_next) = parts.1.step(now, input);
    (Output::Pair(Box::new(left), Box::new(right)), left_next, right_next)
}

fn step_and_then(second: &mut bool, parts: &mut (State, State), now: u64, input: u64) -> Answer {
    if !*second {
        let (output, next) = parts.0.step(now, input);
        if next.is_some() {
            return (Output::Left(Box::new(output)), next);
        }
        *second = true;
    }
    let (output, next) = parts.1.step(now, input);
    (Output::Right(Box::new(output)), next)
}
