//! Running commands. A command takes a state and gives a new one; whoever may have to go back keeps the
//! state that it had, so nothing is ever undone through the records.

use std::rc::Rc;

use crate::answer;
use crate::applying::apply;
use crate::host::Host;
use crate::journal::Record;
use crate::layout::Layout;
use crate::matching::first_match_observed;
use crate::observer::{Event, Observer};
use crate::tree::{Command, Program};

/// The graph and the records so far. An application makes a new graph, so a copy of a state stays what
/// it was.
#[derive(Clone, Debug)]
pub struct State {
    pub host: Rc<Host>,
    pub records: Rc<Vec<Record>>,
}

impl State {
    /// The state before the first command.
    pub fn at_start(host: Host) -> State {
        State {
            host: Rc::new(host),
            records: Rc::default(),
        }
    }

    /// The graph after an application, whose records come behind those so far.
    fn changed(mut self, host: Host, records: Vec<Record>) -> State {
        Rc::make_mut(&mut self.records).extend(records);
        self.host = Rc::new(host);
        self
    }
}

/// How a command ends.
#[derive(Clone, Debug)]
pub enum Ending {
    Success(State),
    Fail,
    /// On the way to the loop around it. Placement keeps it from ending a guard, a procedure or the whole run.
    Break(State),
    /// One of the answers 2 to 6, which end the whole run.
    Stop(u32),
}

/// A run of a program whose form, references, placement and depth are right.
pub struct Run<'a> {
    pub program: &'a Program,
    pub layout: &'a Layout,
    pub fuel_left: u32,
    pub steps: u32,
    /// The slots of the journal.
    pub record_slots: usize,
    pub observer: &'a mut dyn Observer,
}

impl Run<'_> {
    pub fn command(&mut self, command: &Command, state: State) -> Ending {
        if self.fuel_left == 0 {
            return Ending::Stop(answer::OUT_OF_FUEL);
        }
        self.fuel_left -= 1;
        self.steps += 1;
        self.observer.sees(Event::Entered(command));
        match command {
            Command::RuleSet(numbers) => self.rule_set(numbers, state),
            Command::Sequence(parts) => self.sequence(parts, state),
            Command::Guarded {
                keep,
                guard,
                then,
                other,
            } => self.guarded(*keep, [guard, then, other], state),
            Command::Loop(body) => self.loop_command(body, state),
            Command::Skip => Ending::Success(state),
            Command::Fail => Ending::Fail,
            Command::Break => Ending::Break(state),
            Command::Procedure(number) => self.call(*number, state),
        }
    }

    /// The first listed rule that has a match is applied; fail if none has.
    fn rule_set(&mut self, numbers: &[u8], state: State) -> Ending {
        for number in numbers {
            let rule = &self.program.rules[usize::from(*number)];
            let Some(found) = first_match_observed(rule, &state.host, self.observer) else {
                continue;
            };
            let room = self.record_slots - state.records.len();
            return match apply(rule, &found, &state.host, self.layout, room, self.observer) {
                Ok((host, records)) => Ending::Success(state.changed(host, records)),
                Err(answer) => Ending::Stop(answer),
            };
        }
        Ending::Fail
    }

    fn sequence(&mut self, parts: &[Command], mut state: State) -> Ending {
        for part in parts {
            match self.command(part, state) {
                Ending::Success(after) => state = after,
                ending => return ending,
            }
        }
        Ending::Success(state)
    }

    /// The second command runs if the guard succeeded, else the third. A successful guard's changes stay where `keep`
    /// says so; all others are undone first.
    fn guarded(&mut self, keep: bool, parts: [&Command; 3], state: State) -> Ending {
        let [guard, then, other] = parts;
        let (next, kept) = match self.attempt(guard, &state) {
            Ending::Success(after) | Ending::Break(after) => (then, keep.then_some(after)),
            Ending::Fail => (other, None),
            Ending::Stop(answer) => return Ending::Stop(answer),
        };
        self.observer.sees(match kept {
            Some(_) => Event::Kept,
            None => Event::GuardUndone,
        });
        self.command(next, kept.unwrap_or(state))
    }

    /// A failing body is undone back to that iteration's start and the loop succeeds; a break keeps the
    /// graph and the loop succeeds.
    fn loop_command(&mut self, body: &Command, mut state: State) -> Ending {
        loop {
            match self.attempt(body, &state) {
                Ending::Success(after) => {
                    self.observer.sees(Event::Kept);
                    state = after;
                }
                Ending::Fail => {
                    self.observer.sees(Event::BodyUndone);
                    return Ending::Success(state);
                }
                Ending::Break(after) => {
                    self.observer.sees(Event::Kept);
                    return Ending::Success(after);
                }
                Ending::Stop(answer) => return Ending::Stop(answer),
            }
        }
    }

    /// A call ends as its procedure does. Placement keeps a break from ending a procedure.
    fn call(&mut self, number: u8, state: State) -> Ending {
        let program = self.program;
        let ending = self.command(&program.procedures[usize::from(number)], state);
        let failed = matches!(ending, Ending::Fail);
        self.observer.sees(Event::Returned { failed });
        ending
    }

    /// Runs a guard or a loop body on a copy of the state, so that its changes can be given back.
    fn attempt(&mut self, command: &Command, state: &State) -> Ending {
        self.observer.sees(Event::Attempted);
        self.command(command, state.clone())
    }
}
