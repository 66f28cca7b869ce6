//! Outputs of schedules, what tests and functions see of them, and their text.

use crate::schedule::{Function, Pick};
use std::sync::Arc;

#[derive(Clone)]
pub enum Output {
    Number(u64),
    Pair(Box<Output>, Box<Output>),
    Left(Box<Output>),
    Right(Box<Output>),
    /// A list that states and outputs share. With the three words an output is as large as one of zsched, whose list is a
    /// vector with its allocator.
    Items(Arc<Vec<Output>>, #[allow(dead_code)] [u64; 3]),
}

const FITS: &str = "a schedule without a kind is rejected";

impl Output {
    fn number(&self) -> u64 {
        match self {
            Output::Number(number) => *number,
            _ => unreachable!("{FITS}"),
        }
    }

    pub fn picked(&self, pick: Pick) -> u64 {
        match (pick, self) {
            (Pick::Whole, output) => output.number(),
            (Pick::First, Output::Pair(part, _)) | (Pick::Second, Output::Pair(_, part)) => part.number(),
            (Pick::Size, Output::Items(items, _)) => items.len() as u64,
            _ => unreachable!("{FITS}"),
        }
    }

    pub fn map(self, function: Function) -> Output {
        match (function, self) {
            (Function::First, Output::Pair(part, _)) | (Function::Second, Output::Pair(_, part)) => *part,
            (Function::Merge, Output::Left(part) | Output::Right(part)) => *part,
            (Function::Size, Output::Items(items, _)) => Output::Number(items.len() as u64),
            (Function::As(number), _) => Output::Number(number),
            (Function::Add(number), Output::Number(value)) => Output::Number(value.saturating_add(number)),
            (Function::Multiply(number), Output::Number(value)) => Output::Number(value.saturating_mul(number)),
            _ => unreachable!("{FITS}"),
        }
    }

    pub fn put(&self, text: &mut Vec<u8>) {
        let around = |text: &mut Vec<u8>, word: &[u8], part: &Output| {
            text.extend_from_slice(word);
            part.put(text);
            text.push(b')');
        };
        match self {
            Output::Number(number) => put_number(text, *number),
            Output::Left(part) => around(text, b"Left(", part),
            Output::Right(part) => around(text, b"Right(", part),
            Output::Pair(first, second) => {
                text.push(b'(');
                first.put(text);
                text.push(b',');
                second.put(text);
                text.push(b')');
            }
            Output::Items(items, _) => {
                text.push(b'[');
                for (place, item) in items.iter().enumerate() {
                    if place > 0 {
                        text.push(b',');
                    }
                    item.put(text);
                }
                text.push(b']');
            }
        }
    }
}

pub fn put_number(text: &mut Vec<u8>, number: u64) {
    serde_json::to_writer(text, &number).expect("a vector takes all bytes");
}
