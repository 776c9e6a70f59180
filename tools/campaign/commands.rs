//! Which commands are accepted: the refusals in their one order, the types, and what an accepted command does.

use crate::state::{Body, Declared, Kind, Observer, Place, State, Watch};
use crate::syntax::{Command, Formula, Literal, Time};
use crate::values::{BOOL, Base, INT, Outcome, TEXT, Type, Value, function};
use std::collections::BTreeSet;
use std::rc::Rc;

const MOST_PLACES: usize = 1_048_575;
const MOST_LINKS: usize = 4096;

/// A state, and what it printed.
pub struct Answer {
    pub printed: Vec<u8>,
    pub state: State,
}

fn refused(number: u8, state: State) -> Answer {
    let printed = match state.broken {
        Some(broken) if number == 22 => format!("refused 22 {broken}\n"),
        _ => format!("refused {number}\n"),
    };
    Answer { printed: printed.into_bytes(), state }
}

fn accepted(state: State) -> Answer {
    Answer { printed: b"ok\n".to_vec(), state }
}

/// What a state may answer to a line that isn't a stabilize. There is more than one answer where it isn't known what a
/// bind was built for.
pub fn answers(state: State, parsed: &Result<Option<Command>, u8>) -> Vec<Answer> {
    match parsed {
        Err(number) => vec![refused(*number, state)],
        Ok(None) => vec![Answer { printed: Vec::new(), state }],
        Ok(Some(command)) => match check(&state, command) {
            Err(number) => vec![refused(number, state)],
            Ok(()) => carry_out(state, command),
        },
    }
}

/// The refusals up to the types.
fn check(state: &State, command: &Command) -> Result<(), u8> {
    refuse_if(state.broken.is_some(), 22)?;
    if let Command::Var(name, ..) | Command::Let(name, _) | Command::Expert(name, ..) | Command::Grab(name, _) = command
    {
        refuse_if(state.find(name).is_some(), 3)?;
    }
    if let Command::Observe(observer, _) = command {
        refuse_if(state.observer(observer).is_some(), 12)?;
    }
    let mut read = Vec::new();
    names_read(command, &mut read);
    refuse_if(read.iter().any(|name| state.find(name).is_none()), 4)?;
    if let Command::Unobserve(observer) | Command::Watch(observer) | Command::Show(observer) = command {
        refuse_if(state.observer(observer).is_none(), 11)?;
    }
    if let Command::Let(_, formula) = command {
        refuse_if(!functions_are_known(formula), 5)?;
        let is_top_form = |it: &Formula| matches!(it, Formula::After(_) | Formula::Every(_) | Formula::Freeze(..));
        refuse_if(formula.kids().iter().any(|kid| kid.holds(is_top_form)), 14)?;
    }
    if let Command::Expert(_, name, _) = command {
        refuse_if(function(name).is_none(), 5)?;
    }
    let body = |name| &state.declared[state.target(found(state, name))].body;
    if let Command::Set(name, _) = command {
        refuse_if(!matches!(body(name), Body::Var), 7)?;
    }
    if let Command::Grab(_, bind) = command {
        refuse_if(state.bind(state.target(found(state, bind))).is_none(), 8)?;
    }
    if let Command::Link(expert, _) | Command::Unlink(expert, _) | Command::Stale(expert) = command {
        refuse_if(!matches!(body(expert), Body::Expert(..)), 10)?;
    }
    Ok(())
}

fn refuse_if(refuse: bool, number: u8) -> Result<(), u8> {
    if refuse { Err(number) } else { Ok(()) }
}

fn found(state: &State, name: &str) -> usize {
    state.find(name).expect("the names that are read were looked up")
}

/// The declared names that a command reads: bind variables where they stand aren't among them.
fn names_read<'a>(command: &'a Command, read: &mut Vec<&'a str>) {
    match command {
        Command::Var(_, _, literal) => reference_read(literal, read),
        Command::Set(name, literal) => {
            read.push(name);
            reference_read(literal, read);
        }
        Command::Let(_, formula) => free_names(formula, &mut Vec::new(), read),
        Command::Expert(_, _, first) => reference_read(first, read),
        Command::Link(expert, name) | Command::Unlink(expert, name) => read.extend([expert.as_str(), name]),
        Command::Stale(name) | Command::Grab(_, name) | Command::Observe(_, name) => read.push(name),
        Command::Unobserve(_)
        | Command::Watch(_)
        | Command::Show(_)
        | Command::Advance(_)
        | Command::AdvanceTo(_)
        | Command::Stabilize => {}
    }
}

fn reference_read<'a>(literal: &'a Literal, read: &mut Vec<&'a str>) {
    if let Literal::Reference(name) = literal {
        read.push(name);
    }
}

fn free_names<'a>(formula: &'a Formula, variables: &mut Vec<&'a str>, read: &mut Vec<&'a str>) {
    match formula {
        Formula::Literal(literal) => reference_read(literal, read),
        Formula::Name(name) if variables.contains(&name.as_str()) => {}
        Formula::Name(name) => read.push(name),
        Formula::Bind(variable, parts) => {
            free_names(&parts[0], variables, read);
            variables.push(variable);
            free_names(&parts[1], variables, read);
            variables.pop();
        }
        Formula::Fold(_, first, kids) => {
            reference_read(first, read);
            kids.iter().for_each(|kid| free_names(kid, variables, read));
        }
        Formula::Steps(first, steps) => {
            reference_read(first, read);
            steps.iter().for_each(|step| reference_read(&step.1, read));
        }
        _ => formula.kids().iter().for_each(|kid| free_names(kid, variables, read)),
    }
}

fn functions_are_known(formula: &Formula) -> bool {
    let calls_another = |it: &Formula| match it {
        Formula::Call(name, _) | Formula::Fold(name, ..) | Formula::Freeze(_, name) => function(name).is_none(),
        _ => false,
    };
    !formula.holds(calls_another)
}

/// The refusals from the types on, and what an accepted command does.
fn carry_out(mut state: State, command: &Command) -> Vec<Answer> {
    let refusal = match command {
        Command::Var(name, ty, literal) => declare_variable(&mut state, name, *ty, literal).err(),
        Command::Let(name, formula) => declare_formula(&mut state, name, formula).err(),
        Command::Set(name, literal) => set(&mut state, name, literal).err(),
        Command::Expert(name, function, first) => declare_expert(&mut state, name, function, first).err(),
        Command::Link(expert, name) => link(&mut state, expert, name).err(),
        Command::Unlink(expert, name) => unlink(&mut state, expert, name).err(),
        // (what is shown tells nothing of it)
        Command::Stale(_) => None,
        Command::Grab(name, bind) => return grab(state, name, bind),
        Command::Observe(observer, name) => {
            let target = state.target(found(&state, name));
            state.observers.push(Observer { name: observer.clone(), target, shown: None, watch: Watch::Off });
            None
        }
        Command::Unobserve(observer) => {
            state.observers.retain(|other| other.name != *observer);
            None
        }
        Command::Watch(observer) => {
            let observer = state.observer(observer).expect("it is in use");
            let watch = &mut state.observers[observer].watch;
            if *watch == Watch::Off {
                *watch = Watch::Fresh;
            }
            None
        }
        Command::Show(observer) => return vec![show(state, observer)],
        Command::Advance(span) => {
            let to = behind(state.now, *span);
            advance(&mut state, to).err()
        }
        Command::AdvanceTo(time) => advance(&mut state, *time).err(),
        Command::Stabilize => unreachable!("a stabilize is judged by itself"),
    };
    vec![match refusal {
        Some(number) => refused(number, state),
        None => accepted(state),
    }]
}

fn show(state: State, observer: &str) -> Answer {
    let observer = &state.observers[state.observer(observer).expect("it is in use")];
    let mut printed = format!("{} = ", observer.name).into_bytes();
    match &observer.shown {
        None => return refused(13, state),
        Some(outcome) => state.print_outcome(outcome, &mut printed),
    }
    printed.push(b'\n');
    Answer { printed, state }
}

/// The time that is a span behind another one.
fn behind(now: i64, span: Time) -> Time {
    now.checked_add(span?)
}

fn advance(state: &mut State, to: Time) -> Result<(), u8> {
    let to = to.ok_or(16)?;
    refuse_if(to < state.now, 15)?;
    state.now = to;
    Ok(())
}

/// The refusals of the times in a formula.
fn check_times(formula: &Formula, now: i64) -> Result<(), u8> {
    // (a function that `holds` takes knows no clock, and only a whole formula is a span after it)
    refuse_if(matches!(formula, Formula::After(span) if behind(now, *span).is_none()), 16)?;
    let is_late = |it: &Formula| match it {
        Formula::At(time) | Formula::After(time) | Formula::Every(time) => time.is_none(),
        Formula::Steps(_, steps) => steps.iter().any(|step| step.0.is_none()),
        _ => false,
    };
    refuse_if(formula.holds(is_late), 16)?;
    let falls = |it: &Formula| match it {
        Formula::Steps(_, steps) => steps.windows(2).any(|pair| pair[0].0 >= pair[1].0),
        _ => false,
    };
    refuse_if(formula.holds(falls), 17)?;
    refuse_if(matches!(formula, Formula::Every(Some(0))), 18)
}

fn declare(state: &mut State, name: &str, ty: Type, target: Option<usize>, body: Body) {
    let target = target.unwrap_or(state.declared.len());
    state.declared.push(Rc::new(Declared { name: name.to_owned(), ty, target, body }));
}

fn declare_variable(state: &mut State, name: &str, ty: Type, literal: &Literal) -> Result<(), u8> {
    let (has, value) = typed_literal(state, literal)?;
    refuse_if(has != ty, 6)?;
    refuse_if(state.counted + 1 > MOST_PLACES, 19)?;
    state.counted += 1;
    state.values.insert(state.declared.len(), value);
    declare(state, name, ty, None, Body::Var);
    Ok(())
}

fn set(state: &mut State, name: &str, literal: &Literal) -> Result<(), u8> {
    let variable = found(state, name);
    let (has, value) = typed_literal(state, literal)?;
    refuse_if(has != state.declared[variable].ty, 6)?;
    state.values.insert(state.target(variable), value);
    Ok(())
}

fn declare_expert(state: &mut State, name: &str, called: &str, first: &Literal) -> Result<(), u8> {
    let function = function(called).expect("functions were looked up");
    let (ty, first) = typed_literal(state, first)?;
    refuse_if(function.folds().is_none() || ty != Type::Base(function.gives), 6)?;
    refuse_if(state.counted + 1 > MOST_PLACES, 19)?;
    state.counted += 1;
    state.lists.insert(state.declared.len(), Vec::new());
    declare(state, name, ty, None, Body::Expert(function, first));
    Ok(())
}

/// The list of an expert, and the type of what it lists.
fn listed<'a>(state: &'a mut State, expert: &str) -> (&'a mut Vec<usize>, Type) {
    let expert = state.target(found(state, expert));
    let Body::Expert(function, _) = state.declared[expert].body else { unreachable!("it is an expert") };
    let element = function.folds().expect("its function folds");
    (state.lists.get_mut(&expert).expect("it has a list"), Type::Base(element))
}

fn link(state: &mut State, expert: &str, name: &str) -> Result<(), u8> {
    let position = found(state, name);
    let (target, ty) = (state.target(position), state.declared[position].ty);
    let (list, element) = listed(state, expert);
    refuse_if(ty != element, 6)?;
    refuse_if(list.len() == MOST_LINKS, 24)?;
    list.push(target);
    Ok(())
}

fn unlink(state: &mut State, expert: &str, name: &str) -> Result<(), u8> {
    let target = state.target(found(state, name));
    let (list, _) = listed(state, expert);
    let place = list.iter().position(|listed| *listed == target).ok_or(23)?;
    list.remove(place);
    Ok(())
}

fn declare_formula(state: &mut State, name: &str, formula: &Formula) -> Result<(), u8> {
    if let Formula::Name(other) = formula {
        let position = found(state, other);
        declare(state, name, state.declared[position].ty, Some(state.target(position)), Body::Alias);
        return Ok(());
    }
    let predicate = match formula {
        Formula::Freeze(_, predicate) => Some(function(predicate).expect("functions were looked up")),
        _ => None,
    };
    let mut typing = Typing { state, places: Vec::new(), binds: Vec::new(), counted: usize::from(predicate.is_some()) };
    let (outermost, ty) = typing.formula(if let Formula::Freeze(child, _) = formula { child } else { formula })?;
    let (places, counted) = (typing.places, typing.counted);
    if let Some(predicate) = predicate {
        refuse_if(!matches!(predicate.takes, [takes] if Type::Base(*takes) == ty) || predicate.gives != Base::Bool, 6)?;
    }
    check_times(formula, state.now)?;
    refuse_if(state.counted + counted > MOST_PLACES, 19)?;
    state.counted += counted;
    state.places.extend(places.into_iter().map(|place| Rc::new(place.expect("each place was typed"))));
    if let Some(predicate) = predicate {
        declare(state, name, ty, None, Body::Freeze(outermost, predicate));
        return Ok(());
    }
    if let Kind::Bind { .. } = state.places[outermost].kind {
        state.built.insert(state.declared.len(), BTreeSet::from([None]));
    }
    declare(state, name, ty, None, Body::Let(outermost));
    Ok(())
}

/// A grab has another answer for each way in which the bind may have been built.
fn grab(state: State, name: &str, bind: &str) -> Vec<Answer> {
    let bind = state.target(found(&state, bind));
    let (_, body) = state.bind(bind).expect("its formula is a bind");
    let ty = state.places[body].ty;
    let (values, others): (BTreeSet<_>, BTreeSet<_>) =
        state.built[&bind].iter().cloned().partition(|built| matches!(built, Some(Outcome::Value(_))));
    let mut answers = Vec::new();
    if !others.is_empty() {
        let mut state = state.clone();
        state.built.insert(bind, others);
        answers.push(refused(9, state));
    }
    if let Kind::Name(named) = state.places[body].kind {
        if !values.is_empty() {
            let mut state = state;
            state.built.insert(bind, values);
            declare(&mut state, name, ty, Some(named), Body::Alias);
            answers.push(accepted(state));
        }
        return answers;
    }
    for built in values {
        let mut state = state.clone();
        let Some(Outcome::Value(left)) = built.clone() else { unreachable!("only values are left") };
        state.built.insert(bind, BTreeSet::from([built]));
        match state.live_grab(bind) {
            Some(grab) => declare(&mut state, name, ty, Some(grab), Body::Alias),
            None => {
                state.live.insert(state.declared.len());
                declare(&mut state, name, ty, None, Body::Grab { bind, left });
            }
        }
        answers.push(accepted(state));
    }
    answers
}

fn typed_literal(state: &State, literal: &Literal) -> Result<(Type, Value), u8> {
    Ok(match literal {
        Literal::Int(number) => (INT, Value::Int(*number)),
        Literal::Bool(truth) => (BOOL, Value::Bool(*truth)),
        Literal::Text(text) => (TEXT, Value::Text(text.as_slice().into())),
        Literal::Reference(name) => {
            let position = found(state, name);
            match state.declared[position].ty {
                Type::Base(base) => (Type::Node(base), Value::Node(state.target(position))),
                Type::Node(_) => return Err(6),
            }
        }
    })
}

/// Gives the places of a formula their numbers and types.
struct Typing<'a> {
    state: &'a State,
    places: Vec<Option<Place>>,
    /// The binds in whose bodies it stands, each with its variable and the type of its left.
    binds: Vec<(&'a str, usize, Type)>,
    counted: usize,
}

impl<'a> Typing<'a> {
    fn formula(&mut self, formula: &'a Formula) -> Result<(usize, Type), u8> {
        let number = self.state.places.len() + self.places.len();
        let at = self.places.len();
        self.places.push(None);
        let within = self.binds.last().map(|bind| bind.1);
        let (kind, ty) = self.kind(formula, number)?;
        self.counted += match kind {
            Kind::Name(_) | Kind::Variable { .. } => 0,
            Kind::Bind { .. } => 2,
            _ => 1,
        };
        self.places[at] = Some(Place { kind, ty, owner: self.state.declared.len(), within });
        Ok((number, ty))
    }

    fn kind(&mut self, formula: &'a Formula, number: usize) -> Result<(Kind, Type), u8> {
        match formula {
            Formula::Literal(literal) => {
                let (ty, value) = typed_literal(self.state, literal)?;
                Ok((Kind::Literal(value), ty))
            }
            Formula::Name(name) => Ok(self.name(name)),
            Formula::Call(name, kids) => {
                let function = function(name).expect("functions were looked up");
                let (kids, types) = self.formulas(kids)?;
                let takes: Vec<Type> = function.takes.iter().map(|base| Type::Base(*base)).collect();
                refuse_if(types != takes, 6)?;
                Ok((Kind::Application(function, kids), Type::Base(function.gives)))
            }
            Formula::If(kids) => {
                let (places, types) = self.formulas(kids.as_slice())?;
                refuse_if(types[0] != BOOL || types[1] != types[2], 6)?;
                Ok((Kind::If { test: places[0], yes: places[1], no: places[2] }, types[1]))
            }
            Formula::Join(kid) => match self.formula(kid)? {
                (kid, Type::Node(base)) => Ok((Kind::Join(kid), Type::Base(base))),
                _ => Err(6),
            },
            Formula::Bind(variable, parts) => {
                let (left, left_type) = self.formula(&parts[0])?;
                self.binds.push((variable, number, left_type));
                let (body, ty) = self.formula(&parts[1])?;
                self.binds.pop();
                Ok((Kind::Bind { left, body }, ty))
            }
            Formula::Fold(name, first, kids) => {
                let function = function(name).expect("functions were looked up");
                let element = function.folds().ok_or(6)?;
                let (ty, first) = typed_literal(self.state, first)?;
                let (kids, types) = self.formulas(kids)?;
                refuse_if(ty != Type::Base(function.gives) || types.iter().any(|ty| *ty != Type::Base(element)), 6)?;
                Ok((Kind::Fold(function, first, kids), ty))
            }
            // (a time that is too late is refused behind the types, so any time stands for it here)
            Formula::At(time) => Ok((Kind::At(time.unwrap_or(0)), BOOL)),
            Formula::After(span) => Ok((Kind::At(behind(self.state.now, *span).unwrap_or(0)), BOOL)),
            Formula::Now => Ok((Kind::Now, INT)),
            Formula::Every(span) => Ok((Kind::Every { base: self.state.now, span: span.unwrap_or(0) }, INT)),
            Formula::Freeze(..) => unreachable!("it is no part of a formula"),
            Formula::Steps(first, steps) => {
                let (ty, first) = typed_literal(self.state, first)?;
                let mut later = Vec::new();
                for (time, literal) in steps {
                    let (has, value) = typed_literal(self.state, literal)?;
                    refuse_if(has != ty, 6)?;
                    later.push((time.unwrap_or(0), value));
                }
                Ok((Kind::Steps(first, later), ty))
            }
        }
    }

    fn formulas(&mut self, formulas: &'a [Formula]) -> Result<(Vec<usize>, Vec<Type>), u8> {
        let typed: Result<Vec<_>, u8> = formulas.iter().map(|formula| self.formula(formula)).collect();
        Ok(typed?.into_iter().unzip())
    }

    fn name(&self, name: &str) -> (Kind, Type) {
        match self.binds.iter().rev().enumerate().find(|(_, bind)| bind.0 == name) {
            Some((outward, &(_, bind, ty))) => (Kind::Variable { bind, outward }, ty),
            None => {
                let position = found(self.state, name);
                (Kind::Name(self.state.target(position)), self.state.declared[position].ty)
            }
        }
    }
}
