//! The variables of one rule, and labels and operands put in terms of their numbers.

use super::complaint::{Place, Problem};
use super::syntax::*;
use crate::tree::{limit, Element, Operand, VariableType};

pub struct Variables<'a> {
    declared: Vec<Variable<'a>>,
}

struct Variable<'a> {
    name: &'a str,
    kind: VariableType,
    on_left: bool,
}

impl<'a> Variables<'a> {
    pub fn of_rule(rule: &'a RuleText) -> Result<Variables<'a>, Problem> {
        let mut variables = Variables {
            declared: Vec::new(),
        };
        for variable in &rule.variables {
            variables.declare(variable)?;
        }
        Ok(variables)
    }

    fn declare(&mut self, variable: &'a VariableText) -> Result<(), Problem> {
        let name = &variable.name;
        if self
            .declared
            .iter()
            .any(|earlier| earlier.name == name.text)
        {
            return Err(Problem::new(
                name.place,
                format!("the variable `{}` twice, expected each once", name.text),
            ));
        }
        if self.declared.len() == limit::VARIABLES {
            let message = format!(
                "a variable too many, expected at most {} in a rule",
                limit::VARIABLES
            );
            return Err(Problem::new(name.place, message));
        }
        self.declared.push(Variable {
            name: &name.text,
            kind: variable.kind,
            on_left: false,
        });
        Ok(())
    }

    pub fn types(&self) -> Vec<VariableType> {
        self.declared.iter().map(|variable| variable.kind).collect()
    }

    fn find(&self, name: &str, place: Place) -> Result<u8, Problem> {
        match self
            .declared
            .iter()
            .position(|variable| variable.name == name)
        {
            Some(number) => Ok(number as u8),
            None => {
                let message = format!(
                    "the variable `{name}` isn't declared, expected it in the rule's parentheses"
                );
                Err(Problem::new(place, message))
            }
        }
    }

    /// A variable of the right graph or a test, which has to occur in the left graph.
    fn find_bound(&self, name: &str, place: Place) -> Result<u8, Problem> {
        let number = self.find(name, place)?;
        if self.declared[number as usize].on_left {
            return Ok(number);
        }
        Err(Problem::new(
            place,
            format!("the variable `{name}` has no value here, expected it in a left label too"),
        ))
    }

    /// A label of the left graph: constants and variables, at most one of them a list.
    pub fn left_label(&mut self, label: &LabelText) -> Result<Vec<Element>, Problem> {
        check_length(label)?;
        let elements: Result<Vec<Element>, Problem> = label
            .elements
            .iter()
            .map(|element| self.left_element(element))
            .collect();
        let elements = elements?;
        let mut lists = elements
            .iter()
            .zip(&label.elements)
            .filter(|(element, _)| self.is_list(element));
        if let Some((_, second)) = lists.nth(1) {
            let message = "a second list variable in one left label, expected at most one, so that a match is unique";
            return Err(Problem::new(second.place, message));
        }
        Ok(elements)
    }

    fn left_element(&mut self, element: &ElementText) -> Result<Element, Problem> {
        let ElementKind::Single(operand) = &element.kind else {
            let message =
                "a sum or difference on the left can't be held, expected an integer or a variable";
            return Err(Problem::new(element.place, message));
        };
        match &operand.kind {
            OperandKind::Number(value) => Ok(Element::Constant(*value)),
            OperandKind::Variable(name) => {
                let number = self.find(name, operand.place)?;
                self.declared[number as usize].on_left = true;
                Ok(Element::Variable(number))
            }
            OperandKind::Degree(..) => Err(degree_in_label(operand.place)),
        }
    }

    fn is_list(&self, element: &Element) -> bool {
        match element {
            Element::Variable(number) => self.declared[*number as usize].kind == VariableType::List,
            _ => false,
        }
    }

    pub fn right_label(&self, label: &LabelText) -> Result<Vec<Element>, Problem> {
        check_length(label)?;
        label
            .elements
            .iter()
            .map(|element| self.right_element(element))
            .collect()
    }

    fn right_element(&self, element: &ElementText) -> Result<Element, Problem> {
        match &element.kind {
            ElementKind::Sum(a, b) => {
                Ok(Element::Sum(self.label_operand(a)?, self.label_operand(b)?))
            }
            ElementKind::Difference(a, b) => Ok(Element::Difference(
                self.label_operand(a)?,
                self.label_operand(b)?,
            )),
            ElementKind::Single(operand) => match &operand.kind {
                OperandKind::Number(value) => Ok(Element::Constant(*value)),
                OperandKind::Variable(name) => {
                    Ok(Element::Variable(self.find_bound(name, operand.place)?))
                }
                OperandKind::Degree(..) => Err(degree_in_label(operand.place)),
            },
        }
    }

    fn label_operand(&self, operand: &OperandText) -> Result<Operand, Problem> {
        match operand.kind {
            OperandKind::Degree(..) => Err(degree_in_label(operand.place)),
            _ => self.operand(operand),
        }
    }

    /// An operand of a sum, difference or relation: a number or an int variable.
    pub fn operand(&self, operand: &OperandText) -> Result<Operand, Problem> {
        match &operand.kind {
            OperandKind::Number(value) => Ok(Operand::Constant(*value)),
            OperandKind::Variable(name) => {
                let number = self.find_bound(name, operand.place)?;
                match self.declared[number as usize].kind {
                    VariableType::Int => Ok(Operand::Variable(number)),
                    VariableType::List => {
                        let message =
                            format!("`{name}` is a list, expected an integer or an int variable");
                        Err(Problem::new(operand.place, message))
                    }
                }
            }
            OperandKind::Degree(..) => Err(Problem::new(
                operand.place,
                "a degree can't be held here, expected an integer or an int variable",
            )),
        }
    }
}

fn check_length(label: &LabelText) -> Result<(), Problem> {
    match label.elements.get(limit::ELEMENTS) {
        None => Ok(()),
        Some(extra) => {
            let message = format!(
                "a label element too many, expected at most {}",
                limit::ELEMENTS
            );
            Err(Problem::new(extra.place, message))
        }
    }
}

fn degree_in_label(place: Place) -> Problem {
    Problem::new(
        place,
        "a degree in a label can't be held, expected an integer or a variable",
    )
}
