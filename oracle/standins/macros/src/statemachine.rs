//! Stands in for smlang's `statemachine!` as the original uses it: guards give
//! `Result<bool, ()>` and actions `Result<_, ()>`, as smlang 0.8 has them.
//!
//! The public rules it follows:
//! - The starred state is the first one. States and events are enums; contents
//!   are written in brackets after their names.
//! - A state takes an event if a line has both, else the event is an
//!   `InvalidEvent`. Lines for the same pair are tried in order.
//! - A guard is asked first. An error of it is `GuardFailed`; if it is false the
//!   next line is tried, and after the last one it is `TransitionsFailed`.
//! - Then the action runs. An error of it is `ActionFailed`; otherwise what it
//!   gives is the contents of the next state.
//! - Only after that does the state change. No error changes it.
//! - A guard gets `&self`, an action `&mut self`; both get the state's contents
//!   by reference, then the event's, by reference and by value.
//!
//! What it could hide: a version of smlang with other rules. The names of the
//! errors are those the original never spells out; it uses only that a false
//! guard and a missing line are errors.
//!
//! `States::held` is an addition for the driver: the state's contents as text.

use proc_macro::{Delimiter, TokenStream, TokenTree};

/// A name with its contents, which may be none.
#[derive(Clone, Default)]
struct Case {
    name: String,
    of: String,
}

/// `*state(contents) + event(contents) [guard] / action = next(contents)`.
#[derive(Default)]
struct Line {
    first: bool,
    state: Case,
    event: Case,
    guard: Option<String>,
    action: Option<String>,
    next: Case,
}

pub fn expand(block: TokenStream) -> TokenStream {
    let tokens: Vec<TokenTree> = block.into_iter().collect();
    let derives = value_of(&tokens, "derive_states");
    let table: Vec<TokenTree> = value_of(&tokens, "transitions").into_iter().collect();
    let lines: Vec<Line> = table
        .split(|t| t.to_string() == ",")
        .filter(|part| !part.is_empty())
        .map(line)
        .collect();

    let mut states = Vec::new();
    let mut events = Vec::new();
    for l in &lines {
        add(&mut states, &l.state);
        add(&mut states, &l.next);
        add(&mut events, &l.event);
    }
    let first = &lines
        .iter()
        .find(|l| l.first)
        .expect("no first state")
        .state
        .name;

    format!(
        "#[derive({derives})]
        pub enum States {{ {states} }}

        impl States {{
            pub fn held(&self) -> String {{ match self {{ {held} }} }}
        }}

        pub enum Events {{ {events} }}

        #[derive(Debug, PartialEq)]
        pub enum Error {{ InvalidEvent, TransitionsFailed, GuardFailed(()), ActionFailed(()) }}

        pub trait StateMachineContext {{ {methods} }}

        pub struct StateMachine<T: StateMachineContext> {{ state: States, context: T }}

        impl<T: StateMachineContext> StateMachine<T> {{
            pub fn new(context: T) -> Self {{ StateMachine {{ state: States::{first}, context }} }}
            pub fn state(&self) -> &States {{ &self.state }}
            pub fn context(&self) -> &T {{ &self.context }}
            pub fn context_mut(&mut self) -> &mut T {{ &mut self.context }}

            pub fn process_event(&mut self, event: Events) -> Result<&States, Error> {{
                self.state = self.next(event)?;
                Ok(&self.state)
            }}

            fn next(&mut self, event: Events) -> Result<States, Error> {{
                match (&self.state, event) {{
                    {arms}
                    _ => Err(Error::InvalidEvent),
                }}
            }}
        }}",
        states = declared(&states),
        events = declared(&events),
        held = held(&states),
        methods = methods(&lines),
        arms = arms(&lines),
    )
    .parse()
    .unwrap()
}

/// What stands in the brackets after `name :`.
fn value_of(tokens: &[TokenTree], name: &str) -> TokenStream {
    let at = tokens.iter().position(|t| t.to_string() == name);
    match at.map(|i| &tokens[i + 2]) {
        Some(TokenTree::Group(group)) => group.stream(),
        _ => panic!("{name} is missing"),
    }
}

fn line(tokens: &[TokenTree]) -> Line {
    let mut rest = tokens.iter().peekable();
    let mut line = Line::default();
    // Round brackets belong to whatever was named last.
    let named = |rest: &mut std::iter::Peekable<std::slice::Iter<TokenTree>>| {
        let name = rest.next().unwrap().to_string();
        let of = match rest.peek() {
            Some(TokenTree::Group(g)) if g.delimiter() == Delimiter::Parenthesis => {
                rest.next();
                g.stream().to_string()
            }
            _ => String::new(),
        };
        Case { name, of }
    };
    if rest.peek().unwrap().to_string() == "*" {
        rest.next();
        line.first = true;
    }
    line.state = named(&mut rest);
    while let Some(token) = rest.next() {
        match token.to_string().as_str() {
            "+" => line.event = named(&mut rest),
            "/" => line.action = Some(named(&mut rest).name),
            "=" => line.next = named(&mut rest),
            text => match token {
                TokenTree::Group(g) if g.delimiter() == Delimiter::Bracket => {
                    line.guard = Some(g.stream().to_string())
                }
                _ => panic!("not understood in a transition: {text}"),
            },
        }
    }
    line
}

fn add(cases: &mut Vec<Case>, case: &Case) {
    if !cases.iter().any(|c| c.name == case.name) {
        cases.push(case.clone());
    }
}

fn declared(cases: &[Case]) -> String {
    cases
        .iter()
        .map(|c| format!("{},", pattern(c, &c.of)))
        .collect()
}

/// `name(inner)`, or the name alone if the case has no contents.
fn pattern(case: &Case, inner: &str) -> String {
    match case.of.is_empty() {
        true => case.name.clone(),
        false => format!("{}({inner})", case.name),
    }
}

fn held(states: &[Case]) -> String {
    let arm = |c: &Case| match c.of.is_empty() {
        true => format!("States::{} => String::new(),", c.name),
        false => format!("States::{}(held) => format!(\"{{held:?}}\"),", c.name),
    };
    states.iter().map(arm).collect()
}

/// One method for each guard and each action, whichever lines use it.
fn methods(lines: &[Line]) -> String {
    let mut known = Vec::new();
    let mut text = String::new();
    for l in lines {
        let held = argument("held: &", &l.state.of);
        if let Some(guard) = l.guard.as_ref().filter(|g| !known.contains(*g)) {
            let carried = argument("carried: &", &l.event.of);
            text += &format!("fn {guard}(&self {held} {carried}) -> Result<bool, ()>;");
            known.push(guard.clone());
        }
        if let Some(action) = l.action.as_ref().filter(|a| !known.contains(*a)) {
            let carried = argument("carried: ", &l.event.of);
            let gives = if l.next.of.is_empty() {
                "()"
            } else {
                &l.next.of
            };
            text += &format!("fn {action}(&mut self {held} {carried}) -> Result<{gives}, ()>;");
            known.push(action.clone());
        }
    }
    text
}

fn argument(before: &str, of: &str) -> String {
    match of.is_empty() {
        true => String::new(),
        false => format!(", {before}{of}"),
    }
}

/// One arm for each pair of a state and an event, with all lines of the pair.
fn arms(lines: &[Line]) -> String {
    let mut text = String::new();
    for (i, l) in lines.iter().enumerate() {
        let same = |o: &&Line| o.state.name == l.state.name && o.event.name == l.event.name;
        if lines[..i].iter().any(|o| same(&o)) {
            continue;
        }
        let tries: String = lines.iter().filter(same).map(attempt).collect();
        text += &format!(
            "(States::{}, Events::{}) => {{ {tries} #[allow(unreachable_code)] Err(Error::TransitionsFailed) }}",
            pattern(&l.state, "held"),
            pattern(&l.event, "carried"),
        );
    }
    text
}

fn attempt(l: &Line) -> String {
    let held = if l.state.of.is_empty() { "" } else { "held," };
    let (by_ref, by_value) = match l.event.of.is_empty() {
        true => ("", ""),
        false => ("&carried", "carried"),
    };
    let guard = match &l.guard {
        Some(guard) => {
            format!("self.context.{guard}({held} {by_ref}).map_err(Error::GuardFailed)?")
        }
        None => "true".into(),
    };
    let action = match &l.action {
        Some(action) => {
            format!("self.context.{action}({held} {by_value}).map_err(Error::ActionFailed)?")
        }
        None => "()".into(),
    };
    format!(
        "if {guard} {{ let _given = {action}; return Ok(States::{}); }}",
        pattern(&l.next, "_given"),
    )
}
