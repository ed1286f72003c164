//! The refusals 17.

use super::programs::{images, one, program, rule, with_procedures, Images};
use crate::build::{call, if_command, looped, try_command};
use crate::encode;
use crate::tree::Command::{self, Procedure, RuleSet, Sequence, Skip};
use crate::tree::{limit, mark, Element, Operand, Program, Relation, Rule, TestKind, VariableType};

/// The number 17.
pub(super) fn images_of_references() -> Vec<Images> {
    let mut images = references_of_commands();
    images.extend(references_of_procedures());
    images.extend(references_of_calls());
    images.extend(references_to_variables());
    images.extend(references_to_nodes());
    images.extend(references_of_left_labels());
    images.extend(references_of_operands());
    images.extend(references_of_marks());
    images
}

fn references_of_commands() -> Vec<Images> {
    let places: [(&str, fn(u8) -> Command); 9] = [
        ("alone", call),
        ("last of eight", |n| RuleSet(vec![0, 0, 0, 0, 0, 0, 0, n])),
        ("in a sequence", |n| Sequence(vec![Skip, call(n)])),
        ("in an if guard", |n| if_command(call(n), Skip, Skip)),
        ("in an if then", |n| if_command(Skip, call(n), Skip)),
        ("in an if else", |n| if_command(Skip, Skip, call(n))),
        ("in a try guard", |n| try_command(call(n), Skip, Skip)),
        ("in a try else", |n| try_command(Skip, Skip, call(n))),
        ("in a loop", |n| looped(call(n))),
    ];
    let mut list = Vec::new();
    for (words, command) in places {
        for number in [1, 255] {
            let name = format!("rule {number} of one, {words}");
            list.push(images(
                name,
                &program(command(0)),
                &program(command(number)),
            ));
        }
    }
    let without_rules = encode::command(&call(0));
    list.push(images("rule 0 of none", &program(call(0)), &without_rules));
    list
}

/// Rules that are named in a procedure, which is called or not.
fn references_of_procedures() -> Vec<Images> {
    let image = |body: Command, main: Command| {
        encode::program(&Program {
            rules: vec![Rule::default()],
            procedures: vec![Skip, body],
            main,
        })
    };
    let bodies: [(&str, fn(u8) -> Command); 3] = [
        ("alone", call),
        ("last of eight", |n| RuleSet(vec![0, 0, 0, 0, 0, 0, 0, n])),
        ("in a guard", |n| if_command(call(n), Skip, Skip)),
    ];
    let mut list = Vec::new();
    for (words, body) in bodies {
        for (called, main) in [("called", Procedure(1)), ("not called", Skip)] {
            let of = |number| image(body(number), main.clone());
            let name = format!("rule 1 of one in a procedure that is {called}, {words}");
            list.push(images(name, &of(0), &of(1)));
        }
    }
    list
}

/// Procedures that are named in the main command, and in a procedure, which is called or not.
fn references_of_calls() -> Vec<Images> {
    let places: [(&str, fn(u8) -> Command); 7] = [
        ("alone", Procedure),
        ("behind a call", |n| {
            Sequence(vec![Procedure(0), Procedure(n)])
        }),
        ("in a guard", |n| if_command(Procedure(n), Skip, Skip)),
        ("in a then", |n| try_command(Skip, Procedure(n), Skip)),
        ("in an else", |n| try_command(Skip, Skip, Procedure(n))),
        ("in a loop", |n| looped(Procedure(n))),
        ("in a sequence", |n| Sequence(vec![Skip, Procedure(n)])),
    ];
    let mut list = Vec::new();
    for (words, command) in places {
        let main = |number| with_procedures(&[Skip], command(number));
        list.push(images(
            format!("procedure 1 of one, {words}"),
            &main(0),
            &main(1),
        ));
    }
    for (words, command) in &places[..3] {
        for (called, main) in [("called", Procedure(1)), ("not called", Skip)] {
            let of = |number| with_procedures(&[Skip, command(number)], main.clone());
            let name = format!("procedure 2 of two in one that is {called}, {words}");
            list.push(images(name, &of(0), &of(2)));
        }
    }
    let one = |number| with_procedures(&[Skip], Procedure(number));
    let all = |number| with_procedures(&vec![Skip; limit::PROCEDURES], Procedure(number));
    let none = encode::command(&Procedure(0));
    list.extend([
        images("procedure 255 of one", &one(0), &one(255)),
        images("procedure 16 of sixteen", &all(15), &all(16)),
        images("procedure 0 of none", &one(0), &none),
    ]);
    list
}

/// The legal rule, and the same with an edit.
fn edited(name: impl Into<String>, refused: impl Fn(&mut Rule)) -> Images {
    neighbours(name, |_| (), refused)
}

/// The legal rule with an edit that is accepted, and with one that is refused.
fn neighbours(
    name: impl Into<String>,
    accepted: impl Fn(&mut Rule),
    refused: impl Fn(&mut Rule),
) -> Images {
    images(name, &image_with(accepted), &image_with(refused))
}

fn image_with(edit: impl Fn(&mut Rule)) -> Vec<u8> {
    let mut rule = rule();
    edit(&mut rule);
    encode::program(&Program::without_procedures(vec![rule], Skip))
}

/// Puts the variable of a number somewhere in a rule.
type Put = fn(&mut Rule, u8);

/// A variable that may stand there, and one that may not.
fn put_instead(name: String, put: Put, accepted: u8, refused: u8) -> Images {
    neighbours(name, |rule| put(rule, accepted), |rule| put(rule, refused))
}

/// A place for an element on the right side, or for the first or second operand of a sum, a difference or
/// a relation test.
fn places_of_right_side_and_tests() -> Vec<(&'static str, Put)> {
    vec![
        ("on a right node", |rule, v| {
            rule.right.nodes[1].label[0] = Element::Variable(v)
        }),
        ("on a new node", |rule, v| {
            rule.right.nodes[2].label[0] = Element::Variable(v)
        }),
        ("on a right edge", |rule, v| {
            rule.right.edges[0].label[0] = Element::Variable(v)
        }),
        ("first in a sum", |rule, v| {
            rule.right.nodes[0].label[0] = Element::Sum(Operand::Variable(v), one())
        }),
        ("second in a sum", |rule, v| {
            rule.right.edges[0].label[0] = Element::Sum(one(), Operand::Variable(v))
        }),
        ("first in a difference", |rule, v| {
            rule.right.edges[0].label[0] = Element::Difference(Operand::Variable(v), one())
        }),
        ("second in a difference", |rule, v| {
            rule.right.nodes[2].label[0] = Element::Difference(one(), Operand::Variable(v))
        }),
        ("first in equal", |rule, v| {
            rule.tests[3].kind = TestKind::Relation(Relation::Equal, Operand::Variable(v), one())
        }),
        ("second in equal", |rule, v| {
            rule.tests[3].kind = TestKind::Relation(Relation::Equal, one(), Operand::Variable(v))
        }),
        ("first in less", |rule, v| {
            rule.tests[3].kind = TestKind::Relation(Relation::Less, Operand::Variable(v), one())
        }),
        ("second in less", |rule, v| {
            rule.tests[3].kind = TestKind::Relation(Relation::Less, one(), Operand::Variable(v))
        }),
    ]
}

fn references_to_variables() -> Vec<Images> {
    let on_node: Put = |rule, v| rule.left.nodes[0].label.push(Element::Variable(v));
    let on_edge: Put = |rule, v| rule.left.edges[0].label.push(Element::Variable(v));
    let mut list = Vec::new();
    for number in [3, 255] {
        for (place, put) in [("node", on_node), ("edge", on_edge)] {
            let name = format!("variable {number} of three on a left {place}");
            list.push(put_instead(name, put, 2, number));
        }
    }
    for (place, put) in places_of_right_side_and_tests() {
        let undeclared = format!("variable 3 of three {place}");
        list.push(put_instead(undeclared, put, 0, 3));
        let not_on_the_left = format!("variable that is not on the left {place}");
        list.push(put_instead(not_on_the_left, put, 0, 2));
    }
    list
}

fn references_to_nodes() -> Vec<Images> {
    vec![
        edited("left source 2 of two", |rule| rule.left.edges[0].source = 2),
        edited("left target 2 of two", |rule| rule.left.edges[0].target = 2),
        edited("left source 255", |rule| rule.left.edges[0].source = 255),
        edited("right source 3 of three", |rule| {
            rule.right.edges[0].source = 3
        }),
        edited("right target 3 of three", |rule| {
            rule.right.edges[0].target = 3
        }),
        edited("right target 255", |rule| rule.right.edges[0].target = 255),
        edited("edge test from the right's node 2", |rule| {
            rule.tests[0].kind = TestKind::Edge(2, 0)
        }),
        edited("edge test to the right's node 2", |rule| {
            rule.tests[0].kind = TestKind::Edge(0, 2)
        }),
        edited("in-degree of the right's node 2", |rule| {
            rule.tests[1].kind = TestKind::InDegree(2, 0)
        }),
        edited("out-degree of the right's node 2", |rule| {
            rule.tests[2].kind = TestKind::OutDegree(2, 0)
        }),
        edited("interface larger than the left side", |rule| {
            rule.interface = 3
        }),
        neighbours(
            "interface larger than the right side",
            |rule| keep_right_nodes(rule, 2),
            |rule| keep_right_nodes(rule, 1),
        ),
        edited("interface of 255 nodes", |rule| rule.interface = 255),
    ]
}

fn keep_right_nodes(rule: &mut Rule, count: usize) {
    rule.right.nodes.truncate(count);
    rule.right.edges.clear();
}

fn references_of_left_labels() -> Vec<Images> {
    let on_node: PutElement = |rule, element| rule.left.nodes[1].label.push(element);
    let on_edge: PutElement = |rule, element| rule.left.edges[0].label.push(element);
    let sum = Element::Sum(one(), Operand::Variable(0));
    let difference = Element::Difference(Operand::Variable(0), one());
    let mut list = Vec::new();
    for (place, put) in [("node", on_node), ("edge", on_edge)] {
        for (words, element) in [("sum", sum), ("difference", difference)] {
            let name = format!("{words} on a left {place}");
            let accepted = |rule: &mut Rule| put(rule, Element::Variable(0));
            list.push(neighbours(name, accepted, |rule| put(rule, element)));
        }
    }
    list.extend(references_of_left_lists());
    list
}

/// Puts an element somewhere in a rule.
type PutElement = fn(&mut Rule, Element);

/// Variable 1 is a list, which stands on left node 1 already; so is variable 2 here.
fn references_of_left_lists() -> Vec<Images> {
    let on_node: Put = |rule, v| {
        rule.variables[2] = VariableType::List;
        rule.left.nodes[1].label.push(Element::Variable(v));
    };
    let on_edge: Put = |rule, v| {
        rule.variables[2] = VariableType::List;
        let label = &mut rule.left.edges[0].label;
        label.extend([Element::Variable(1), Element::Variable(v)]);
    };
    let mut list = Vec::new();
    for (place, put) in [("node", on_node), ("edge", on_edge)] {
        for (words, number) in [("one list variable twice", 1), ("two list variables", 2)] {
            let name = format!("{words} on a left {place}");
            list.push(put_instead(name, put, 0, number));
        }
    }
    list
}

fn references_of_operands() -> Vec<Images> {
    let places = places_of_right_side_and_tests().into_iter();
    let operands =
        places.filter(|(place, _)| place.starts_with("first") || place.starts_with("second"));
    operands
        .map(|(place, put)| put_instead(format!("list variable {place}"), put, 0, 1))
        .collect()
}

fn references_of_marks() -> Vec<Images> {
    vec![
        edited("any on a new node", |rule| {
            rule.right.nodes[2].mark = mark::ANY
        }),
        edited(
            "any on an interface node that is none on the left",
            |rule| {
                rule.right.nodes[1].mark = mark::ANY;
            },
        ),
        edited("any on the right where the left is red", |rule| {
            rule.left.nodes[0].mark = mark::RED
        }),
        edited("any on a right edge", |rule| {
            rule.right.edges[0].mark = mark::ANY
        }),
        edited("any on a node that leaves the interface", |rule| {
            rule.interface = 0
        }),
    ]
}
