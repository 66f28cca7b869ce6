//! Schedules as trees, with their tests and functions.

#[derive(Clone, Copy)]
pub enum Comparison {
    Less,
    LessOrEqual,
    Equal,
    NotEqual,
    GreaterOrEqual,
    Greater,
}

/// Compares a value on its left with the number on its right.
#[derive(Clone, Copy)]
pub struct Test {
    pub comparison: Comparison,
    pub number: u64,
}

impl Test {
    pub fn accepts(self, value: u64) -> bool {
        match self.comparison {
            Comparison::Less => value < self.number,
            Comparison::LessOrEqual => value <= self.number,
            Comparison::Equal => value == self.number,
            Comparison::NotEqual => value != self.number,
            Comparison::GreaterOrEqual => value >= self.number,
            Comparison::Greater => value > self.number,
        }
    }
}

/// Which number of an output is tested.
#[derive(Clone, Copy, PartialEq)]
pub enum Pick {
    Whole,
    First,
    Second,
    Size,
}

#[derive(Clone, Copy)]
pub enum Function {
    First,
    Second,
    Size,
    Merge,
    As(u64),
    Add(u64),
    Multiply(u64),
}

#[derive(Clone, Copy)]
pub enum Operator {
    Both,
    Either,
    AndThen,
}

pub enum Leaf {
    Forever,
    Recurs(u64),
    Spaced(u64),
    Fixed(u64),
    Windowed(u64),
    Exponential { base: u64, factor: u64 },
    Fibonacci(u64),
    Linear(u64),
    Identity,
    Elapsed,
}

pub enum Schedule {
    Leaf(Leaf),
    Join(Operator, Box<Schedule>, Box<Schedule>),
    WhileInput(Box<Schedule>, Test),
    WhileOutput(Box<Schedule>, Pick, Test),
    CollectAll(Box<Schedule>),
    Map(Box<Schedule>, Function),
    ResetWhen(Box<Schedule>, Pick, Test),
}
