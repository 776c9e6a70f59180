//! Values, their types and printed forms, and the functions of the library.

use std::rc::Rc;

const LONGEST_TEXT: usize = 4096;

#[derive(Clone, Copy, Debug, PartialEq, Eq)]
pub enum Base {
    Int,
    Bool,
    Text,
}

#[derive(Clone, Copy, Debug, PartialEq, Eq)]
pub enum Type {
    Base(Base),
    Node(Base),
}

pub const INT: Type = Type::Base(Base::Int);
pub const BOOL: Type = Type::Base(Base::Bool);
pub const TEXT: Type = Type::Base(Base::Text);

#[derive(Clone, Debug, PartialEq, Eq, PartialOrd, Ord, Hash)]
pub enum Value {
    Int(i64),
    Bool(bool),
    Text(Rc<[u8]>),
    /// A reference to the declaration at this position.
    Node(usize),
}

#[derive(Clone, Debug, PartialEq, Eq, PartialOrd, Ord)]
pub enum Outcome<T = Value> {
    Value(T),
    Invalid,
}

/// Appends a text as scripts and answers have it.
pub fn quote(text: &[u8], out: &mut Vec<u8>) {
    out.push(b'"');
    for &byte in text {
        if byte == b'"' || byte == b'\\' {
            out.push(b'\\');
        }
        out.push(byte);
    }
    out.push(b'"');
}

/// A function of the library. `meaning` takes values of the types that it takes.
pub struct Function {
    pub name: &'static str,
    pub takes: &'static [Base],
    pub gives: Base,
    pub meaning: fn(&[Value]) -> Value,
}

/// Functions are those of one table, so the name tells them apart.
impl PartialEq for Function {
    fn eq(&self, other: &Function) -> bool {
        self.name == other.name
    }
}

impl Eq for Function {}

pub fn function(name: &str) -> Option<&'static Function> {
    FUNCTIONS.iter().find(|function| function.name == name)
}

impl Function {
    /// The element's type, where a fold can be made with the function.
    pub fn folds(&self) -> Option<Base> {
        match self.takes {
            [first, element] if *first == self.gives => Some(*element),
            _ => None,
        }
    }
}

fn int(value: &Value) -> i64 {
    match value {
        Value::Int(number) => *number,
        _ => unreachable!("an int was checked"),
    }
}

fn truth(value: &Value) -> bool {
    match value {
        Value::Bool(truth) => *truth,
        _ => unreachable!("a bool was checked"),
    }
}

fn text(value: &Value) -> &[u8] {
    match value {
        Value::Text(bytes) => bytes,
        _ => unreachable!("a text was checked"),
    }
}

fn quotient(a: i64, b: i64) -> i64 {
    if b == 0 { 0 } else { a.wrapping_div(b) }
}

fn remainder(a: i64, b: i64) -> i64 {
    if b == 0 { 0 } else { a.wrapping_rem(b) }
}

fn joined(a: &[u8], b: &[u8]) -> Value {
    let length = (a.len() + b.len()).min(LONGEST_TEXT);
    Value::Text(a.iter().chain(b).take(length).copied().collect())
}

use Base::{Bool, Int, Text};

#[rustfmt::skip]
pub static FUNCTIONS: [Function; 22] = [
    Function { name: "add", takes: &[Int, Int], gives: Int, meaning: |a| Value::Int(int(&a[0]).wrapping_add(int(&a[1]))) },
    Function { name: "sub", takes: &[Int, Int], gives: Int, meaning: |a| Value::Int(int(&a[0]).wrapping_sub(int(&a[1]))) },
    Function { name: "mul", takes: &[Int, Int], gives: Int, meaning: |a| Value::Int(int(&a[0]).wrapping_mul(int(&a[1]))) },
    Function { name: "div", takes: &[Int, Int], gives: Int, meaning: |a| Value::Int(quotient(int(&a[0]), int(&a[1]))) },
    Function { name: "rem", takes: &[Int, Int], gives: Int, meaning: |a| Value::Int(remainder(int(&a[0]), int(&a[1]))) },
    Function { name: "neg", takes: &[Int], gives: Int, meaning: |a| Value::Int(int(&a[0]).wrapping_neg()) },
    Function { name: "min", takes: &[Int, Int], gives: Int, meaning: |a| Value::Int(int(&a[0]).min(int(&a[1]))) },
    Function { name: "max", takes: &[Int, Int], gives: Int, meaning: |a| Value::Int(int(&a[0]).max(int(&a[1]))) },
    Function { name: "clamp", takes: &[Int, Int, Int], gives: Int,
               meaning: |a| Value::Int(int(&a[0]).max(int(&a[1])).min(int(&a[2]))) },
    Function { name: "pick", takes: &[Bool, Int, Int], gives: Int,
               meaning: |a| Value::Int(if truth(&a[0]) { int(&a[1]) } else { int(&a[2]) }) },
    Function { name: "sum9", takes: &[Int; 9], gives: Int,
               meaning: |a| Value::Int(a.iter().fold(0, |sum, b| sum.wrapping_add(int(b)))) },
    Function { name: "eq", takes: &[Int, Int], gives: Bool, meaning: |a| Value::Bool(int(&a[0]) == int(&a[1])) },
    Function { name: "lt", takes: &[Int, Int], gives: Bool, meaning: |a| Value::Bool(int(&a[0]) < int(&a[1])) },
    Function { name: "le", takes: &[Int, Int], gives: Bool, meaning: |a| Value::Bool(int(&a[0]) <= int(&a[1])) },
    Function { name: "and", takes: &[Bool, Bool], gives: Bool, meaning: |a| Value::Bool(truth(&a[0]) && truth(&a[1])) },
    Function { name: "or", takes: &[Bool, Bool], gives: Bool, meaning: |a| Value::Bool(truth(&a[0]) || truth(&a[1])) },
    Function { name: "not", takes: &[Bool], gives: Bool, meaning: |a| Value::Bool(!truth(&a[0])) },
    Function { name: "cat", takes: &[Text, Text], gives: Text, meaning: |a| joined(text(&a[0]), text(&a[1])) },
    Function { name: "len", takes: &[Text], gives: Int, meaning: |a| Value::Int(text(&a[0]).len() as i64) },
    Function { name: "same", takes: &[Text, Text], gives: Bool, meaning: |a| Value::Bool(text(&a[0]) == text(&a[1])) },
    Function { name: "show", takes: &[Int], gives: Text, meaning: |a| Value::Text(int(&a[0]).to_string().into_bytes().into()) },
    Function { name: "pos", takes: &[Int], gives: Bool, meaning: |a| Value::Bool(int(&a[0]) > 0) },
];
