//! Kinds of outputs: whether each test and function of a schedule fits its input.

use crate::schedule::{Function, Operator, Pick, Schedule};

#[derive(PartialEq)]
enum Kind {
    Number,
    Pair(Box<Kind>, Box<Kind>),
    Sum(Box<Kind>, Box<Kind>),
    Items(Box<Kind>),
}

pub fn has_kind(schedule: &Schedule) -> bool {
    kind_of(schedule).is_some()
}

fn fits(pick: Pick, kind: &Kind) -> bool {
    match (pick, kind) {
        (Pick::Whole, Kind::Number) | (Pick::Size, Kind::Items(_)) => true,
        (Pick::First, Kind::Pair(part, _)) | (Pick::Second, Kind::Pair(_, part)) => **part == Kind::Number,
        _ => false,
    }
}

fn kind_after(function: Function, kind: Kind) -> Option<Kind> {
    match (function, kind) {
        (Function::First, Kind::Pair(part, _)) | (Function::Second, Kind::Pair(_, part)) => Some(*part),
        (Function::Merge, Kind::Sum(left, right)) if left == right => Some(*left),
        (Function::Size, Kind::Items(_)) => Some(Kind::Number),
        (Function::Add(_) | Function::Multiply(_), Kind::Number) => Some(Kind::Number),
        (Function::As(_), _) => Some(Kind::Number),
        _ => None,
    }
}

fn kind_of(schedule: &Schedule) -> Option<Kind> {
    match schedule {
        Schedule::Leaf(_) => Some(Kind::Number),
        Schedule::Join(operator, left, right) => {
            let (left, right) = (Box::new(kind_of(left)?), Box::new(kind_of(right)?));
            Some(match operator {
                Operator::Both | Operator::Either => Kind::Pair(left, right),
                Operator::AndThen => Kind::Sum(left, right),
            })
        }
        Schedule::WhileInput(part, _) => kind_of(part),
        Schedule::WhileOutput(part, pick, _) | Schedule::ResetWhen(part, pick, _) => {
            kind_of(part).filter(|kind| fits(*pick, kind))
        }
        Schedule::CollectAll(part) => Some(Kind::Items(Box::new(kind_of(part)?))),
        Schedule::Map(part, function) => kind_after(*function, kind_of(part)?),
    }
}
