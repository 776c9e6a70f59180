//! What a session has of the clock: times, formulas that read it, and lines that move it.

use super::{Step, Writer, line};
use crate::state::{Kind, State};
use crate::values::{BOOL, Base, INT, Type};

const GREATEST: i64 = i64::MAX;
const UNITS: [(&str, i64); 5] = [("", 1), ("ns", 1), ("us", 1_000), ("ms", 1_000_000), ("s", 1_000_000_000)];
/// Spans about as long as a turn of a level of the wheel, and others.
const SPANS: [i64; 14] =
    [1, 2, 3, 10, 254, 255, 256, 257, 511, 65_535, 65_536, 65_537, 10_000_000_000, 1_099_511_627_776];

/// A span that is far for a move of the clock.
const FAR: i64 = 1 << 41;

/// When a part of a formula turns next, after now.
fn next_turn(kind: &Kind, now: i64) -> Option<i64> {
    match kind {
        Kind::At(time) => Some(*time).filter(|time| *time > now),
        Kind::Steps(_, steps) => steps.iter().map(|step| step.0).find(|time| *time > now),
        Kind::Every { base, span } => base.checked_add(((now - base) / span + 1).checked_mul(*span)?),
        _ => None,
    }
}

impl Writer {
    /// A time as a line may have it.
    fn spelled(&mut self, time: i64) -> String {
        let fitting: Vec<_> = UNITS.iter().filter(|unit| time % unit.1 == 0).collect();
        let (unit, nanoseconds) = **self.chance.pick(&fitting);
        let zeros = if self.chance.percent(3) { "00" } else { "" };
        format!("{zeros}{}{unit}", time / nanoseconds)
    }

    /// A time, or one a nanosecond before or behind it.
    fn about(&mut self, time: i64) -> i64 {
        time.saturating_add(*self.chance.pick(&[-1, 0, 0, 0, 1])).max(0)
    }

    /// About where a level of a wheel turns next, or one of the next few times that it does.
    fn border(&mut self, now: i64) -> i64 {
        let level =
            if self.chance.percent(3) { self.chance.between(3, 7) } else { *self.chance.pick(&[1, 1, 1, 2, 2, 3]) };
        let bits = 8 * level;
        let turns = (now >> bits) + self.chance.between(1, 3) as i64;
        let border = if turns > GREATEST >> bits { GREATEST } else { turns << bits };
        self.about(border)
    }

    fn span(&mut self) -> i64 {
        match self.chance.below(8) {
            0 => self.chance.between(1, 20) as i64,
            1 => (self.chance.draw() >> self.chance.between(2, 60)) as i64 + 1,
            _ => *self.chance.pick(&SPANS),
        }
    }

    /// A time that a formula waits for: mostly later than now, and near a border of a level.
    fn time(&mut self, now: i64) -> i64 {
        match self.chance.below(20) {
            0..=5 => now.saturating_add(self.chance.between(0, 12) as i64),
            6..=9 => now.saturating_add(self.span()),
            10..=16 => self.border(now),
            17 => self.about(now / 2),
            18 => (self.chance.draw() >> 1) as i64,
            _ => *self.chance.pick(&[0, 1, now, GREATEST - 1, GREATEST]),
        }
    }

    /// A formula of the type that reads the clock, which may stand anywhere in another one.
    pub(super) fn timed(&mut self, state: &State, ty: Type) -> String {
        if ty == BOOL && self.chance.percent(70) {
            let time = self.time(state.now);
            return format!("at {}", self.spelled(time));
        }
        if ty == INT && self.chance.percent(25) {
            return "now".to_owned();
        }
        let count = self.chance.below(5);
        let mut times: Vec<i64> = (0..count).map(|_| self.time(state.now)).collect();
        times.sort_unstable();
        times.dedup();
        let first = self.literal(state, ty);
        let steps = times.into_iter().map(|time| format!("{}: {}", self.spelled(time), self.literal(state, ty)));
        let steps: Vec<String> = steps.collect();
        format!("steps {first} [{}]", steps.join(", "))
    }

    /// A formula that stands alone in its line.
    fn beat(&mut self, ty: Type, now: i64) -> String {
        let form = if ty == INT { "every" } else { "after" };
        let span = self.span().min((GREATEST - now).max(1));
        format!("{form} {}", self.spelled(span))
    }

    /// A name that reads the clock, and at times a bind over it with parts that read it too.
    pub(super) fn clocked(&mut self, state: &State) {
        let ty = *self.chance.pick(&[INT, INT, BOOL]);
        let (beat, name) = (self.fresh("t"), self.fresh("a"));
        let formula = if self.chance.percent(60) && (ty == INT || state.now < GREATEST) {
            self.beat(ty, state.now)
        } else {
            self.timed(state, ty)
        };
        self.plan([line(format!("let {beat} {formula}"))]);
        let mut variables = vec![("v".to_owned(), ty)];
        let body = match self.chance.below(4) {
            0 => self.timed(state, INT),
            1 => format!("add({}, {})", self.timed(state, INT), self.timed(state, INT)),
            2 => format!("if {} then {} else x0", self.timed(state, BOOL), self.timed(state, INT)),
            _ => self.formula(state, INT, 3, &mut variables),
        };
        self.plan([line(format!("let {name} bind v = {beat} in {body}"))]);
        self.observe_name(&name);
        if self.chance.percent(50) {
            self.observe_name(&beat);
        }
        self.plan([Step::Stabilize, Step::Shows]);
        if self.chance.percent(50) {
            let grab = self.fresh("g");
            self.plan([line(format!("grab {grab} {name}"))]);
            self.observe_name(&grab);
        }
    }

    /// Two names of which one reads the other, first the one and then the other, as the clock says.
    pub(super) fn clocked_circle(&mut self, state: &State) {
        let time = self.border(state.now).max(state.now.saturating_add(1));
        let (when, reference) = (self.spelled(time), self.fresh("h"));
        let (first, second) = (self.fresh("y"), self.fresh("y"));
        let formula = match self.chance.below(3) {
            0 => format!("join(steps &{first} [{when}: &x0])"),
            1 => format!("bind v = at {when} in if v then 2 else neg({first})"),
            _ => format!("if at {when} then 2 else {first}"),
        };
        self.plan([
            line(format!("var {reference} node int &x0")),
            line(format!("let {first} if at {when} then join({reference}) else 1")),
            line(format!("let {second} {formula}")),
            line(format!("set {reference} &{second}")),
        ]);
        self.observe_name(&first);
        self.observe_name(&second);
        self.plan([Step::Stabilize, Step::Shows]);
        if self.chance.percent(50) {
            self.plan([line(format!("advance-to {}ns", time - 1)), Step::Stabilize, Step::Shows]);
        }
        self.plan([line(format!("advance-to {when}")), Step::Stabilize, Step::Shows]);
    }

    /// Moves the clock on: mostly about to where something turns, or to a border of a level, at times far.
    pub(super) fn move_clock(&mut self, state: &State) {
        let now = state.now;
        let most = if self.chance.percent(2) { GREATEST } else { now.saturating_add(FAR) };
        let turns = state.places.iter().filter_map(|place| next_turn(&place.kind, now));
        let turns: Vec<i64> = turns.filter(|turn| *turn < most).collect();
        let to = match self.chance.below(40) {
            0..=6 if !turns.is_empty() => {
                let first = turns.iter().copied().min().expect("there is one");
                self.about(first)
            }
            7..=20 if !turns.is_empty() => {
                let one = *self.chance.pick(&turns);
                self.about(one)
            }
            21 => now,
            22..=23 => now.saturating_add(self.chance.between(1, 3) as i64),
            24..=26 => now.saturating_add(*self.chance.pick(&SPANS)),
            30 if self.chance.percent(10) => (self.chance.draw() >> self.chance.between(1, 12)) as i64,
            31 if self.chance.percent(3) => *self.chance.pick(&[GREATEST - 1, GREATEST]),
            _ => self.border(now),
        };
        let text = if to >= now && self.chance.percent(50) {
            format!("advance {}", self.spelled(to - now))
        } else {
            format!("advance-to {}", self.spelled(to))
        };
        self.plan([line(text)]);
    }

    /// A line that is refused for its times, or that is accepted at the edge of that.
    pub(super) fn wrong_time(&mut self, state: &State, new: &str) -> String {
        let most = GREATEST - state.now;
        let time = self.border(state.now);
        match self.chance.below(24) {
            0 => format!("let {new} not(after 5s)"),
            1 => format!("let {new} bind v = x0 in every 10s"),
            2 => format!("let {new} if at {time} then every 1 else 1"),
            3 => format!("let {new} fold add from 0 [now, every 99999999999999999999]"),
            4 => format!("advance-to {}", state.now - 1),
            5 => format!("advance-to {}", state.now),
            6 => format!("advance {}", i128::from(most) + 1),
            7 => format!("advance-to 9223372036854775808"),
            8 => format!("let {new} at 9223372036854775808"),
            9 => format!("let {new} at 9223372036854775807ns"),
            10 => format!("let {new} at 9223372036855s"),
            11 => format!("let {new} every 9223372036854775808"),
            12 => format!("let {new} after {}", i128::from(most) + 1),
            13 => format!("let {new} after {most}"),
            14 => format!("let {new} steps 1 [{time}: 2, {time}ns: 3]"),
            15 => format!("let {new} steps 1 [5s: 2, 4999ms: 3]"),
            16 => format!("let {new} neg(steps 1 [1: 2, 9223372036854775808: 3, 2: 4])"),
            17 => format!("let {new} every 0"),
            18 => format!("let {new} every 000ms"),
            19 => format!("let {new} steps 1 [{time}: true]"),
            20 => format!("let {new} if now then at 99999999999999999999 else at 1"),
            21 => format!("let {new} bind v = steps &x0 [1: &c0] in 1"),
            22 => format!("advance -1"),
            _ => format!("let {new} at 5h"),
        }
    }

    /// A reference that steps from one name to another, and what reads the named one.
    pub(super) fn stepped(&mut self, state: &State) {
        let (reference, name) = (self.fresh("k"), self.fresh("a"));
        let steps = loop {
            let steps = self.timed(state, Type::Node(Base::Int));
            if steps.contains(": ") || self.chance.percent(20) {
                break steps;
            }
        };
        self.plan([line(format!("let {reference} {steps}")), line(format!("let {name} neg(join({reference}))"))]);
        self.observe_name(&name);
    }
}
