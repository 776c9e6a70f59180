//! The lines of a script, as far as their form goes: tokens, the level, and the grammar of the forms that are written.

use crate::values::{Base, Type};

const LONGEST_LINE: usize = 4096;
const DEEPEST_LEVEL: i32 = 64;
const RESERVED: [&str; 21] = [
    "if", "then", "else", "bind", "in", "join", "fold", "from", "at", "steps", "now", "freeze", "when", "after",
    "every", "true", "false", "int", "bool", "text", "node",
];

pub enum Command {
    Var(String, Type, Literal),
    Set(String, Literal),
    Let(String, Formula),
    /// An expert, its function and its first value.
    Expert(String, String, Literal),
    Link(String, String),
    Unlink(String, String),
    Stale(String),
    Grab(String, String),
    Observe(String, String),
    Unobserve(String),
    Watch(String),
    Show(String),
    Advance(Time),
    AdvanceTo(Time),
    Stabilize,
}

/// A time or a span in nanoseconds, `None` where it is past the greatest.
pub type Time = Option<i64>;

pub enum Literal {
    Int(i64),
    Bool(bool),
    Text(Vec<u8>),
    Reference(String),
}

pub enum Formula {
    Literal(Literal),
    Name(String),
    Call(String, Vec<Formula>),
    If(Box<[Formula; 3]>),
    /// The variable, and the left side and the body.
    Bind(String, Box<[Formula; 2]>),
    Join(Box<Formula>),
    Fold(String, Literal, Vec<Formula>),
    At(Time),
    Steps(Literal, Vec<(Time, Literal)>),
    Now,
    After(Time),
    Every(Time),
    /// The formula, and the predicate.
    Freeze(Box<Formula>, String),
}

impl Formula {
    /// The formulas that it is made of.
    pub fn kids(&self) -> &[Formula] {
        match self {
            Formula::Call(_, kids) | Formula::Fold(_, _, kids) => kids,
            Formula::If(kids) => kids.as_slice(),
            Formula::Bind(_, parts) => parts.as_slice(),
            Formula::Join(kid) | Formula::Freeze(kid, _) => std::slice::from_ref(kid),
            _ => &[],
        }
    }

    /// Whether this formula or one within it is one of some.
    pub fn holds(&self, is_one: fn(&Formula) -> bool) -> bool {
        is_one(self) || self.kids().iter().any(|kid| kid.holds(is_one))
    }
}

/// The command of a line, `None` for a line that asks for nothing, or the number that it is refused with.
pub fn parse(line: &[u8]) -> Result<Option<Command>, u8> {
    if line.len() > LONGEST_LINE {
        return Err(2);
    }
    let line = line.strip_suffix(b"\r").unwrap_or(line);
    if matches!(line.iter().find(|&&byte| byte != b' '), None | Some(b'#')) {
        return Ok(None);
    }
    let tokens = tokens(line).ok_or(1)?;
    if too_deep(&tokens) {
        return Err(25);
    }
    let mut rest = Rest { tokens: &tokens };
    let command = rest.command().ok_or(1)?;
    if rest.tokens.is_empty() { Ok(Some(command)) } else { Err(1) }
}

enum Token {
    Word(String),
    Int(String),
    Text(Vec<u8>),
    Sign(u8),
    Time(Time),
    AdvanceTo,
}

fn is_letter(byte: u8) -> bool {
    byte.is_ascii_alphabetic() || byte == b'_'
}

fn is_word(byte: u8) -> bool {
    is_letter(byte) || byte.is_ascii_digit()
}

fn tokens(line: &[u8]) -> Option<Vec<Token>> {
    let mut found = Vec::new();
    let mut at = 0;
    while at < line.len() {
        let rest = &line[at..];
        if rest[0] == b' ' {
            at += 1;
            continue;
        }
        let (token, length) = token(rest)?;
        found.push(token);
        at += length;
    }
    Some(found)
}

/// The first token, and how many bytes it has.
fn token(rest: &[u8]) -> Option<(Token, usize)> {
    let words = |from: usize| from + rest[from..].iter().take_while(|&&byte| is_word(byte)).count();
    let spelled = |from: usize, to: usize| String::from_utf8_lossy(&rest[from..to]).into_owned();
    match rest[0] {
        b'(' | b')' | b'[' | b']' | b',' | b':' | b'=' | b'&' => Some((Token::Sign(rest[0]), 1)),
        b'"' => quoted(rest),
        first if is_letter(first) => {
            let to = words(0);
            if &rest[..to] == b"advance" && rest[to..].starts_with(b"-to") && words(to + 3) == to + 3 {
                return Some((Token::AdvanceTo, to + 3));
            }
            Some((Token::Word(spelled(0, to)), to))
        }
        first if first == b'-' || first.is_ascii_digit() => {
            let from = usize::from(first == b'-');
            let digits = from + rest[from..].iter().take_while(|byte| byte.is_ascii_digit()).count();
            let to = words(digits);
            match &rest[digits..to] {
                _ if digits == from => None,
                b"" => Some((Token::Int(spelled(0, to)), to)),
                unit if from == 0 => Some((Token::Time(time(&rest[..digits], nanoseconds(unit)?)), to)),
                _ => None,
            }
        }
        _ => None,
    }
}

/// How many nanoseconds a unit has.
fn nanoseconds(unit: &[u8]) -> Option<i64> {
    match unit {
        b"ns" => Some(1),
        b"us" => Some(1_000),
        b"ms" => Some(1_000_000),
        b"s" => Some(1_000_000_000),
        _ => None,
    }
}

fn time(digits: &[u8], unit: i64) -> Time {
    let number = |so_far: i64, digit: &u8| so_far.checked_mul(10)?.checked_add(i64::from(digit - b'0'));
    digits.iter().try_fold(0, number)?.checked_mul(unit)
}

fn quoted(rest: &[u8]) -> Option<(Token, usize)> {
    let mut text = Vec::new();
    let mut at = 1;
    loop {
        match *rest.get(at)? {
            b'"' => return Some((Token::Text(text), at + 1)),
            b'\\' => match *rest.get(at + 1)? {
                escaped @ (b'"' | b'\\') => {
                    text.push(escaped);
                    at += 2;
                }
                _ => return None,
            },
            byte @ 0x20..=0x7e => {
                text.push(byte);
                at += 1;
            }
            _ => return None,
        }
    }
}

fn too_deep(tokens: &[Token]) -> bool {
    let mut level = 0;
    tokens.iter().any(|token| {
        level += match token {
            Token::Sign(b'(' | b'[') => 1,
            Token::Sign(b')' | b']') => -1,
            Token::Word(word) if word == "if" || word == "bind" => 1,
            _ => 0,
        };
        level > DEEPEST_LEVEL
    })
}

/// The tokens that are still to be read. What isn't in the grammar gives `None`.
struct Rest<'a> {
    tokens: &'a [Token],
}

impl Rest<'_> {
    fn command(&mut self) -> Option<Command> {
        let word = match self.next()? {
            Token::Word(word) => word.clone(),
            Token::AdvanceTo => return Some(Command::AdvanceTo(self.time()?)),
            _ => return None,
        };
        Some(match word.as_str() {
            "var" => Command::Var(self.name()?, self.ty()?, self.literal()?),
            "set" => Command::Set(self.name()?, self.literal()?),
            "let" => Command::Let(self.name()?, self.formula()?),
            "expert" => self.expert()?,
            "link" => Command::Link(self.name()?, self.name()?),
            "unlink" => Command::Unlink(self.name()?, self.name()?),
            "stale" => Command::Stale(self.name()?),
            "grab" => Command::Grab(self.name()?, self.name()?),
            "observe" => Command::Observe(self.name()?, self.name()?),
            "unobserve" => Command::Unobserve(self.name()?),
            "watch" => Command::Watch(self.name()?),
            "show" => Command::Show(self.name()?),
            "advance" => Command::Advance(self.time()?),
            "stabilize" => Command::Stabilize,
            _ => return None,
        })
    }

    fn expert(&mut self) -> Option<Command> {
        let name = self.name()?;
        self.word("fold")?;
        let function = self.name()?;
        self.word("from")?;
        Some(Command::Expert(name, function, self.literal()?))
    }

    fn next(&mut self) -> Option<&Token> {
        let (first, rest) = self.tokens.split_first()?;
        self.tokens = rest;
        Some(first)
    }

    fn word(&mut self, word: &str) -> Option<()> {
        matches!(self.next()?, Token::Word(found) if found == word).then_some(())
    }

    fn sign(&mut self, sign: u8) -> Option<()> {
        matches!(self.next()?, Token::Sign(found) if *found == sign).then_some(())
    }

    fn begins_with(&self, sign: u8) -> bool {
        matches!(self.tokens.first(), Some(Token::Sign(found)) if *found == sign)
    }

    fn name(&mut self) -> Option<String> {
        match self.next()? {
            Token::Word(word) if !RESERVED.contains(&word.as_str()) => Some(word.clone()),
            _ => None,
        }
    }

    fn ty(&mut self) -> Option<Type> {
        let Token::Word(word) = self.next()? else { return None };
        if word == "node" {
            let Token::Word(word) = self.next()? else { return None };
            return Some(Type::Node(base(word)?));
        }
        Some(Type::Base(base(word)?))
    }

    fn literal(&mut self) -> Option<Literal> {
        Some(match self.next()? {
            Token::Int(digits) => Literal::Int(digits.parse().ok()?),
            Token::Text(text) => Literal::Text(text.clone()),
            Token::Word(word) if word == "true" || word == "false" => Literal::Bool(word == "true"),
            Token::Sign(b'&') => Literal::Reference(self.name()?),
            _ => return None,
        })
    }

    fn time(&mut self) -> Option<Time> {
        match self.next()? {
            Token::Time(found) => Some(*found),
            Token::Int(digits) if !digits.starts_with('-') => Some(time(digits.as_bytes(), 1)),
            _ => None,
        }
    }

    fn formula(&mut self) -> Option<Formula> {
        let Some(Token::Word(word)) = self.tokens.first() else { return Some(Formula::Literal(self.literal()?)) };
        match word.as_str() {
            "true" | "false" => return Some(Formula::Literal(self.literal()?)),
            "if" | "bind" | "join" | "fold" | "at" | "steps" | "now" | "after" | "every" | "freeze" => self.next()?,
            _ => {
                let name = self.name()?;
                return Some(if self.begins_with(b'(') {
                    Formula::Call(name, self.arguments()?)
                } else {
                    Formula::Name(name)
                });
            }
        };
        Some(match word.as_str() {
            "if" => {
                let test = self.formula()?;
                self.word("then")?;
                let yes = self.formula()?;
                self.word("else")?;
                Formula::If(Box::new([test, yes, self.formula()?]))
            }
            "bind" => {
                let variable = self.name()?;
                self.sign(b'=')?;
                let left = self.formula()?;
                self.word("in")?;
                Formula::Bind(variable, Box::new([left, self.formula()?]))
            }
            "at" => Formula::At(self.time()?),
            "now" => Formula::Now,
            "after" => Formula::After(self.time()?),
            "every" => Formula::Every(self.time()?),
            "freeze" => {
                let kid = self.formula()?;
                self.word("when")?;
                Formula::Freeze(Box::new(kid), self.name()?)
            }
            "steps" => {
                let first = self.literal()?;
                self.sign(b'[')?;
                let steps = if self.begins_with(b']') { Vec::new() } else { self.steps()? };
                self.sign(b']')?;
                Formula::Steps(first, steps)
            }
            "join" => {
                self.sign(b'(')?;
                let kid = self.formula()?;
                self.sign(b')')?;
                Formula::Join(Box::new(kid))
            }
            _ => {
                let function = self.name()?;
                self.word("from")?;
                let first = self.literal()?;
                self.sign(b'[')?;
                let elements = if self.begins_with(b']') { Vec::new() } else { self.formulas()? };
                self.sign(b']')?;
                Formula::Fold(function, first, elements)
            }
        })
    }

    fn steps(&mut self) -> Option<Vec<(Time, Literal)>> {
        let mut found = vec![self.step()?];
        while self.begins_with(b',') {
            self.next()?;
            found.push(self.step()?);
        }
        Some(found)
    }

    fn step(&mut self) -> Option<(Time, Literal)> {
        let time = self.time()?;
        self.sign(b':')?;
        Some((time, self.literal()?))
    }

    fn arguments(&mut self) -> Option<Vec<Formula>> {
        self.sign(b'(')?;
        let arguments = self.formulas()?;
        self.sign(b')')?;
        (arguments.len() <= 9).then_some(arguments)
    }

    fn formulas(&mut self) -> Option<Vec<Formula>> {
        let mut found = vec![self.formula()?];
        while self.begins_with(b',') {
            self.next()?;
            found.push(self.formula()?);
        }
        Some(found)
    }
}

fn base(word: &str) -> Option<Base> {
    match word {
        "int" => Some(Base::Int),
        "bool" => Some(Base::Bool),
        "text" => Some(Base::Text),
        _ => None,
    }
}
