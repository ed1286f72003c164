//! From a condition to the image's tests: a conjunction of possibly negated edge, degree and relation tests.

use super::complaint::{Place, Problem};
use super::lower_rules::NodeOrder;
use super::syntax::*;
use super::variables::Variables;
use crate::tree::{limit, Relation, Test, TestKind};

pub fn tests(
    condition: &ConditionText,
    order: &NodeOrder,
    variables: &Variables,
) -> Result<Vec<Test>, Problem> {
    let mut lowering = Lowering {
        order,
        variables,
        tests: Vec::new(),
    };
    lowering.condition(condition, false)?;
    Ok(lowering.tests)
}

struct Lowering<'a, 'b> {
    order: &'a NodeOrder<'b>,
    variables: &'a Variables<'b>,
    tests: Vec<Test>,
}

impl Lowering<'_, '_> {
    fn condition(&mut self, condition: &ConditionText, negated: bool) -> Result<(), Problem> {
        match &condition.kind {
            ConditionKind::Not(inner) => self.condition(inner, !negated),
            ConditionKind::And(parts) if !negated => parts.iter().try_for_each(|part| self.condition(part, false)),
            ConditionKind::Or(parts) if negated => parts.iter().try_for_each(|part| self.condition(part, true)),
            ConditionKind::And(_) => Err(Problem::new(
                condition.place,
                "the negation of `and` is an `or`, which can't be held, expected a conjunction of tests",
            )),
            ConditionKind::Or(_) => {
                Err(Problem::new(condition.place, "`or` can't be held, expected a conjunction of tests with `and`"))
            }
            ConditionKind::Edge(a, b) => {
                let kind = TestKind::Edge(self.order.number(a, "left")?, self.order.number(b, "left")?);
                self.push(condition.place, Test { negated, kind })
            }
            ConditionKind::Relation(comparison, sides) => {
                let comparison = if negated { negation(*comparison) } else { *comparison };
                self.relation(condition.place, comparison, sides)
            }
        }
    }

    fn push(&mut self, place: Place, test: Test) -> Result<(), Problem> {
        if self.tests.len() == limit::TESTS {
            return Err(Problem::new(
                place,
                format!(
                    "a test too many, expected at most {} in a rule",
                    limit::TESTS
                ),
            ));
        }
        self.tests.push(test);
        Ok(())
    }

    fn relation(
        &mut self,
        place: Place,
        comparison: Comparison,
        [a, b]: &[ElementText; 2],
    ) -> Result<(), Problem> {
        let (a, b) = (side(a)?, side(b)?);
        match (&a.kind, &b.kind) {
            (OperandKind::Degree(direction, node), _) => {
                self.degree(place, *direction, node, comparison, b)
            }
            (_, OperandKind::Degree(direction, node)) => {
                self.degree(place, *direction, node, mirrored(comparison), a)
            }
            _ => {
                let (a, b) = (self.variables.operand(a)?, self.variables.operand(b)?);
                let (negated, relation, a, b) = match comparison {
                    Comparison::Equal => (false, Relation::Equal, a, b),
                    Comparison::NotEqual => (true, Relation::Equal, a, b),
                    Comparison::Less => (false, Relation::Less, a, b),
                    Comparison::AtLeast => (true, Relation::Less, a, b),
                    Comparison::Greater => (false, Relation::Less, b, a),
                    Comparison::AtMost => (true, Relation::Less, b, a),
                };
                self.push(
                    place,
                    Test {
                        negated,
                        kind: TestKind::Relation(relation, a, b),
                    },
                )
            }
        }
    }

    /// A degree compared with a number, in tests that ask for equality alone.
    fn degree(
        &mut self,
        place: Place,
        direction: Direction,
        node: &Name,
        comparison: Comparison,
        number: &OperandText,
    ) -> Result<(), Problem> {
        let OperandKind::Number(value) = number.kind else {
            return Err(Problem::new(
                number.place,
                "a degree is compared with a number alone, expected an integer",
            ));
        };
        let node = self.order.number(node, "left")?;
        let (negated, numbers) = degree_numbers(comparison, i64::from(value))
            .map_err(|message| Problem::new(place, message))?;
        for number in numbers {
            let kind = match direction {
                Direction::In => TestKind::InDegree(node, number),
                Direction::Out => TestKind::OutDegree(node, number),
            };
            self.push(place, Test { negated, kind })?;
        }
        Ok(())
    }
}

fn side(element: &ElementText) -> Result<&OperandText, Problem> {
    match &element.kind {
        ElementKind::Single(operand) => Ok(operand),
        _ => Err(Problem::new(
            element.place,
            "a sum or difference in a test can't be held, expected an integer, an int variable or a degree",
        )),
    }
}

fn negation(comparison: Comparison) -> Comparison {
    match comparison {
        Comparison::Equal => Comparison::NotEqual,
        Comparison::NotEqual => Comparison::Equal,
        Comparison::Less => Comparison::AtLeast,
        Comparison::AtLeast => Comparison::Less,
        Comparison::Greater => Comparison::AtMost,
        Comparison::AtMost => Comparison::Greater,
    }
}

/// The comparison that holds of `b` and `a` where the given one holds of `a` and `b`.
fn mirrored(comparison: Comparison) -> Comparison {
    match comparison {
        Comparison::Less => Comparison::Greater,
        Comparison::Greater => Comparison::Less,
        Comparison::AtMost => Comparison::AtLeast,
        Comparison::AtLeast => Comparison::AtMost,
        symmetric => symmetric,
    }
}

/// The numbers that a degree has to equal, or with `true` those that it must not equal.
fn degree_numbers(comparison: Comparison, value: i64) -> Result<(bool, Vec<u16>), String> {
    match comparison {
        Comparison::Equal => Ok((false, vec![two_bytes(value)?])),
        Comparison::NotEqual => Ok((true, vec![two_bytes(value)?])),
        Comparison::Less => at_most(value - 1),
        Comparison::AtMost => at_most(value),
        Comparison::Greater => at_least(value + 1),
        Comparison::AtLeast => at_least(value),
    }
}

fn two_bytes(value: i64) -> Result<u16, String> {
    u16::try_from(value)
        .map_err(|_| format!("a degree compared with {value}, expected a number from 0 to 65535"))
}

fn at_most(value: i64) -> Result<(bool, Vec<u16>), String> {
    match value {
        0 => Ok((false, vec![0])),
        1.. => Err(format!("a degree of at most {value} is an `or` of equalities, which can't be held, expected =, != or a lower bound")),
        _ => Err("a degree is never below 0, expected a test that can hold".to_string()),
    }
}

fn at_least(value: i64) -> Result<(bool, Vec<u16>), String> {
    match value {
        1..=4 => Ok((true, (0..value as u16).collect())),
        5.. => Err(format!(
            "a degree of at least {value} takes {value} tests, expected at most {} in a rule",
            limit::TESTS
        )),
        _ => Err("a degree is always at least 0, expected a test that can fail".to_string()),
    }
}
