//! The names of rules and procedures, in the scopes that local declarations make, and the check that
//! procedures call each other in no ring.

use super::complaint::{Place, Problem};
use super::lower_rules::rules;
use super::parse_program::is_procedure_name;
use super::syntax::*;
use crate::tree::{limit, Rule};
use std::collections::HashMap;
use std::ops::Range;

/// How many procedures may call each other in a row.
const MOST_CALLS: usize = 32;

pub struct Scopes<'a> {
    scopes: Vec<Scope<'a>>,
    /// In the order in which their declarations begin.
    pub procedures: Vec<Procedure<'a>>,
    /// The rules of the image, in the order of their declarations.
    pub rules: Vec<Rule>,
    /// Where the declaration of each rule of the image stands.
    pub rule_places: Vec<Place>,
}

struct Scope<'a> {
    outer: Option<usize>,
    names: HashMap<&'a str, Meaning>,
}

#[derive(Clone)]
pub enum Meaning {
    /// The numbers of the rules that a rule's name stands for.
    Rules(Range<u8>),
    /// A place in the list of procedures.
    Procedure(usize),
}

pub struct Procedure<'a> {
    pub name: &'a Name,
    pub body: &'a CommandText,
    /// The scope of its local declarations.
    pub scope: usize,
}

impl<'a> Scopes<'a> {
    pub const OUTERMOST: usize = 0;

    pub fn of_program(program: &'a ProgramText) -> Result<Scopes<'a>, Problem> {
        let mut scopes = Scopes {
            scopes: Vec::new(),
            procedures: Vec::new(),
            rules: Vec::new(),
            rule_places: Vec::new(),
        };
        scopes.add_scope(None, &program.declarations)?;
        scopes.check_calls(&program.main)?;
        Ok(scopes)
    }

    fn add_scope(
        &mut self,
        outer: Option<usize>,
        declarations: &'a [Declaration],
    ) -> Result<usize, Problem> {
        let scope = self.scopes.len();
        self.scopes.push(Scope {
            outer,
            names: HashMap::new(),
        });
        for declaration in declarations {
            match declaration {
                Declaration::Rule(rule) => {
                    let numbers = self.add_rule(rule)?;
                    self.name(scope, &rule.name, Meaning::Rules(numbers))?;
                }
                Declaration::Procedure(procedure) => self.add_procedure(scope, procedure)?,
            }
        }
        Ok(scope)
    }

    fn add_rule(&mut self, text: &RuleText) -> Result<Range<u8>, Problem> {
        let first = self.rules.len();
        for rule in rules(text)? {
            if self.rules.len() == limit::RULES {
                let message = format!(
                    "a rule too many (a bidirectional edge makes two of one), expected at most {} in an image",
                    limit::RULES
                );
                return Err(Problem::new(text.name.place, message));
            }
            self.rules.push(rule);
            self.rule_places.push(text.name.place);
        }
        Ok(first as u8..self.rules.len() as u8)
    }

    fn add_procedure(&mut self, scope: usize, text: &'a ProcedureText) -> Result<(), Problem> {
        let number = self.procedures.len();
        self.procedures.push(Procedure {
            name: &text.name,
            body: &text.body,
            scope: self.scopes.len(),
        });
        self.add_scope(Some(scope), &text.locals)?;
        self.name(scope, &text.name, Meaning::Procedure(number))
    }

    fn name(&mut self, scope: usize, name: &'a Name, meaning: Meaning) -> Result<(), Problem> {
        if self.scopes[scope]
            .names
            .insert(&name.text, meaning)
            .is_some()
        {
            let message = format!("`{}` is declared twice, expected each name once", name.text);
            return Err(Problem::new(name.place, message));
        }
        Ok(())
    }

    /// What a name means in a scope: its own declaration there, or the nearest one outside of it.
    pub fn find(&self, name: &str, place: Place, scope: usize) -> Result<Meaning, Problem> {
        let mut current = Some(scope);
        while let Some(number) = current {
            let scope = &self.scopes[number];
            if let Some(meaning) = scope.names.get(name) {
                return Ok(meaning.clone());
            }
            current = scope.outer;
        }
        let kind = if is_procedure_name(name) {
            "procedure"
        } else {
            "rule"
        };
        Err(Problem::new(
            place,
            format!("no {kind} `{name}`, expected the name of a declared one"),
        ))
    }

    pub fn find_rules(&self, name: &Name, scope: usize) -> Result<Range<u8>, Problem> {
        match self.find(&name.text, name.place, scope)? {
            Meaning::Rules(numbers) => Ok(numbers),
            Meaning::Procedure(_) => {
                let message = format!(
                    "the procedure `{}` in a rule set, expected names of rules",
                    name.text
                );
                Err(Problem::new(name.place, message))
            }
        }
    }

    /// Every called name is declared, and no procedure calls itself, directly or through others.
    fn check_calls(&self, main: &MainText) -> Result<(), Problem> {
        let mut check = CallCheck {
            scopes: self,
            row: Vec::new(),
            heights: vec![None; self.procedures.len()],
        };
        check.command(&main.body, Scopes::OUTERMOST)?;
        (0..self.procedures.len())
            .try_for_each(|number| check.procedure(number, Place::START).map(|_| ()))
    }
}

struct CallCheck<'a> {
    scopes: &'a Scopes<'a>,
    /// The procedures that are being gone through, each called by the one before.
    row: Vec<usize>,
    /// For each procedure that was gone through, the longest row of calls that starts with it.
    heights: Vec<Option<usize>>,
}

impl CallCheck<'_> {
    /// The longest row of calls that starts with a procedure.
    fn procedure(&mut self, number: usize, called_at: Place) -> Result<usize, Problem> {
        if let Some(start) = self.row.iter().position(|earlier| *earlier == number) {
            return Err(Problem::new(called_at, self.ring(start)));
        }
        let known = self.heights[number];
        if self.row.len() + known.unwrap_or(1) > MOST_CALLS {
            let message = format!("procedures that call each other more than {MOST_CALLS} in a row, expected at most that");
            return Err(Problem::new(called_at, message));
        }
        if let Some(height) = known {
            return Ok(height);
        }
        self.row.push(number);
        let procedure = &self.scopes.procedures[number];
        let height = 1 + self.command(procedure.body, procedure.scope)?;
        self.row.pop();
        self.heights[number] = Some(height);
        Ok(height)
    }

    fn ring(&self, start: usize) -> String {
        let names: Vec<&str> = self.row[start..]
            .iter()
            .map(|number| self.scopes.procedures[*number].name.text.as_str())
            .collect();
        let (first, ring) = (names[0], names.join(" calls "));
        format!("a ring of calls ({ring} calls {first}), expected procedures that don't call themselves")
    }

    /// The longest row of calls in a command.
    fn command(&mut self, text: &CommandText, scope: usize) -> Result<usize, Problem> {
        match &text.kind {
            CommandKind::Call(name) => match self.scopes.find(name, text.place, scope)? {
                Meaning::Procedure(number) => self.procedure(number, text.place),
                Meaning::Rules(_) => Ok(0),
            },
            CommandKind::RuleSet(names) => {
                names
                    .iter()
                    .try_for_each(|name| self.scopes.find_rules(name, scope).map(|_| ()))?;
                Ok(0)
            }
            CommandKind::Sequence(parts) => self.commands(parts.iter(), scope),
            CommandKind::If(guard, then, otherwise) | CommandKind::Try(guard, then, otherwise) => {
                self.commands(
                    [guard, then, otherwise].into_iter().map(|part| &**part),
                    scope,
                )
            }
            CommandKind::Loop(body) => self.command(body, scope),
            CommandKind::Skip | CommandKind::Fail | CommandKind::Break => Ok(0),
        }
    }

    fn commands<'t>(
        &mut self,
        parts: impl Iterator<Item = &'t CommandText>,
        scope: usize,
    ) -> Result<usize, Problem> {
        let mut longest = 0;
        for part in parts {
            longest = longest.max(self.command(part, scope)?);
        }
        Ok(longest)
    }
}
