//! Reads the text of a schedule in one pass, with its nesting in a vector.

use crate::kind::has_kind;
use crate::schedule::{Comparison, Function, Leaf, Operator, Pick, Schedule, Test};
use crate::tokens::{Stuck, Tokens};

const DEEPEST: u32 = 64;
const HEAVIEST: u32 = 1000;

/// A part that was read: the schedule with its depth and weight, or nothing if it is too big.
struct Part(Option<(Schedule, u32, u32)>);

impl Part {
    fn new(schedule: Schedule, depth: u32, weight: u32) -> Part {
        Part((depth <= DEEPEST && weight <= HEAVIEST).then_some((schedule, depth, weight)))
    }

    /// One node over this part, whose weight counts `times` times.
    fn over(self, times: u32, make: impl FnOnce(Box<Schedule>) -> Schedule) -> Part {
        match self.0 {
            Some((part, depth, weight)) => Part::new(make(Box::new(part)), depth + 1, 1 + times * weight),
            None => self,
        }
    }

    fn join(operator: Operator, left: Part, right: Part) -> Part {
        match (left.0, right.0) {
            (Some((left, d, w)), Some((right, e, v))) => {
                Part::new(Schedule::Join(operator, Box::new(left), Box::new(right)), 1 + d.max(e), 1 + w + v)
            }
            _ => Part(None),
        }
    }
}

struct Reader<'t> {
    tokens: Tokens<'t>,
    zero_factor: bool,
    zero_window: bool,
}

impl Reader<'_> {
    /// Reads the word here, if it is one of these.
    fn word<T: Copy>(&mut self, words: &[(&[u8], T)]) -> Result<T, Stuck> {
        let token = self.tokens.token;
        let Some((_, meaning)) = words.iter().find(|(word, _)| *word == token) else { return self.tokens.stuck() };
        self.tokens.advance()?;
        Ok(*meaning)
    }

    fn leaf(&mut self) -> Result<Leaf, Stuck> {
        let plain: Option<Leaf> = match self.tokens.token {
            b"forever" => Some(Leaf::Forever),
            b"identity" => Some(Leaf::Identity),
            b"elapsed" => Some(Leaf::Elapsed),
            _ => None,
        };
        if let Some(leaf) = plain {
            self.tokens.advance()?;
            return Ok(leaf);
        }
        let of_number: fn(u64) -> Leaf = match self.tokens.token {
            b"recurs" => Leaf::Recurs,
            b"spaced" => Leaf::Spaced,
            b"fixed" => Leaf::Fixed,
            b"windowed" => Leaf::Windowed,
            b"exponential" => |base| Leaf::Exponential { base, factor: 2 },
            b"fibonacci" => Leaf::Fibonacci,
            b"linear" => Leaf::Linear,
            _ => return self.tokens.stuck(),
        };
        self.tokens.advance()?;
        self.tokens.expect(b"(")?;
        let mut leaf = of_number(self.tokens.number()?);
        if let Leaf::Exponential { factor, .. } = &mut leaf {
            if self.tokens.accept(b",")? {
                *factor = self.tokens.number()?;
            }
        }
        self.zero_factor |= matches!(leaf, Leaf::Exponential { factor: 0, .. });
        self.zero_window |= matches!(leaf, Leaf::Windowed(0));
        self.tokens.expect(b")")?;
        Ok(leaf)
    }

    /// `C N )`
    fn test(&mut self) -> Result<Test, Stuck> {
        let comparison = self.word(&[
            (b"<", Comparison::Less),
            (b"<=", Comparison::LessOrEqual),
            (b"=", Comparison::Equal),
            (b"!=", Comparison::NotEqual),
            (b">=", Comparison::GreaterOrEqual),
            (b">", Comparison::Greater),
        ])?;
        let number = self.tokens.number()?;
        self.tokens.expect(b")")?;
        Ok(Test { comparison, number })
    }

    /// `C N )` or `P C N )`
    fn picked_test(&mut self) -> Result<(Pick, Test), Stuck> {
        let pick = match self.tokens.token {
            b"_1" => Pick::First,
            b"_2" => Pick::Second,
            b"size" => Pick::Size,
            _ => Pick::Whole,
        };
        if pick != Pick::Whole {
            self.tokens.advance()?;
        }
        Ok((pick, self.test()?))
    }

    /// `F )`
    fn function(&mut self) -> Result<Function, Stuck> {
        let function = self.word(&[
            (b"_1", Function::First),
            (b"_2", Function::Second),
            (b"size", Function::Size),
            (b"merge", Function::Merge),
            (b"as", Function::As(0)),
            (b"+", Function::Add(0)),
            (b"*", Function::Multiply(0)),
        ])?;
        let function = match function {
            Function::As(_) => Function::As(self.tokens.number()?),
            Function::Add(_) => Function::Add(self.tokens.number()?),
            Function::Multiply(_) => Function::Multiply(self.tokens.number()?),
            plain => plain,
        };
        self.tokens.expect(b")")?;
        Ok(function)
    }

    /// What follows a dot.
    fn tail(&mut self, part: Part) -> Result<Part, Stuck> {
        let word = self.tokens.token;
        match word {
            b"collectAll" => {
                self.tokens.advance()?;
                return Ok(part.over(1, Schedule::CollectAll));
            }
            b"whileInput" | b"whileOutput" | b"resetWhen" | b"map" => self.tokens.advance()?,
            _ => return self.tokens.stuck(),
        }
        self.tokens.expect(b"(")?;
        Ok(match word {
            b"whileInput" => {
                let test = self.test()?;
                part.over(1, |s| Schedule::WhileInput(s, test))
            }
            b"whileOutput" => {
                let (pick, test) = self.picked_test()?;
                part.over(1, |s| Schedule::WhileOutput(s, pick, test))
            }
            b"resetWhen" => {
                let (pick, test) = self.picked_test()?;
                part.over(2, |s| Schedule::ResetWhen(s, pick, test))
            }
            _ => {
                let function = self.function()?;
                part.over(1, |s| Schedule::Map(s, function))
            }
        })
    }

    /// The whole text. Each open parenthesis has an entry, which stores its left part and operator after they are read.
    fn schedule(&mut self) -> Result<Part, Stuck> {
        let mut open: Vec<Option<Box<(Part, Operator)>>> = vec![];
        loop {
            while self.tokens.accept(b"(")? {
                open.push(None);
            }
            let mut part = Part::new(Schedule::Leaf(self.leaf()?), 1, 1);
            loop {
                if self.tokens.accept(b".")? {
                    part = self.tail(part)?;
                    continue;
                }
                match open.pop() {
                    None if self.tokens.token.is_empty() => return Ok(part),
                    None => return self.tokens.stuck(),
                    Some(None) => {
                        let operator = self.word(&[
                            (b"&&", Operator::Both),
                            (b"||", Operator::Either),
                            (b"andThenEither", Operator::AndThen),
                        ])?;
                        open.push(Some(Box::new((part, operator))));
                        break;
                    }
                    Some(Some(read)) => {
                        self.tokens.expect(b")")?;
                        let (left, operator) = *read;
                        part = Part::join(operator, left, part);
                    }
                }
            }
        }
    }
}

/// The schedule of a text, or the text of its fault.
pub fn read(text: &str) -> Result<Schedule, String> {
    let no_term = |place: Stuck| format!("no term at byte {}", place.0);
    let tokens = Tokens::new(text).map_err(no_term)?;
    let mut reader = Reader { tokens, zero_factor: false, zero_window: false };
    let part = reader.schedule().map_err(no_term)?;
    let (schedule, _, _) = part.0.ok_or("too big")?;
    if let Some(at) = reader.tokens.first_large {
        return Err(format!("number too large at byte {at}"));
    }
    if reader.zero_factor {
        return Err("factor is 0".into());
    }
    if !has_kind(&schedule) {
        return Err("no kind".into());
    }
    if reader.zero_window {
        return Err("window is 0".into());
    }
    Ok(schedule)
}
