//! Labels: what variables take on the left, and what right labels come to.

use super::bytes::*;
use super::rules::*;
use second::encode::node_slot;
use second::tree::*;

/// The label after a rule that turns one node label into another, if the rule has a match.
fn relabelled(
    types: &[VariableType],
    left: &[Element],
    right: &[Element],
    atoms: &[i32],
) -> Result<Vec<u8>, u32> {
    let rule = node_rule(&[node(mark::NONE, left)], &[node(mark::NONE, right)], 1);
    let rule = variables(types, rule);
    let outcome = applied(rule, &[node_slot(mark::NONE, false, atoms)], &[]);
    match outcome.answer {
        0 => Ok(outcome.nodes),
        answer => Err(answer),
    }
}

fn label(atoms: &[i32]) -> Result<Vec<u8>, u32> {
    Ok(node_slot(mark::NONE, false, atoms).to_vec())
}

#[test]
fn a_list_variable_takes_what_the_other_elements_leave() {
    use Element::{Constant, Variable};
    let types = [VariableType::List, VariableType::Int];
    let (list, x) = (Variable(0), Variable(1));
    let swap = |atoms: &[i32]| relabelled(&types, &[Constant(9), list, x], &[x, list], atoms);
    assert_eq!(swap(&[9, 1]), label(&[1]));
    assert_eq!(swap(&[9, 1, 2]), label(&[2, 1]));
    assert_eq!(swap(&[9, 1, 2, 3]), label(&[3, 1, 2]));
    assert_eq!(swap(&[9]), Err(1));
    assert_eq!(swap(&[]), Err(1));
    assert_eq!(swap(&[8, 1, 2]), Err(1));
    let longest = [1, 2, 3, 4, 5, 6, 7, 8];
    for atoms in (0..=8).map(|length| &longest[..length]) {
        assert_eq!(relabelled(&types, &[list], &[list], atoms), label(atoms));
    }
}

#[test]
fn an_int_variable_takes_one_atom_and_has_one_value() {
    use Element::Variable;
    let types = [VariableType::Int, VariableType::Int];
    let (x, y) = (Variable(0), Variable(1));
    assert_eq!(
        relabelled(&types, &[x, y], &[y, x], &[1, 2]),
        label(&[2, 1])
    );
    assert_eq!(relabelled(&types, &[x, y], &[y, x], &[1]), Err(1));
    assert_eq!(relabelled(&types, &[x, y], &[y, x], &[1, 2, 3]), Err(1));
    assert_eq!(relabelled(&types, &[x, x], &[x], &[3, 3]), label(&[3]));
    assert_eq!(relabelled(&types, &[x, x], &[x], &[3, 4]), Err(1));
}

#[test]
fn a_list_variable_of_two_labels_has_one_value() {
    let list = Element::Variable(0);
    let both = [node(mark::NONE, &[list]), node(mark::NONE, &[list])];
    let same = variables(&[VariableType::List], node_rule(&both, &both, 2));
    let slots = |atoms: [&[i32]; 3]| atoms.map(|atoms| node_slot(mark::NONE, false, atoms));
    let outcome = applied(same.clone(), &slots([&[1], &[1, 1], &[1]]), &[]);
    let first = node_slot(mark::NONE, false, &[1]);
    assert_eq!(outcome.answer, 0);
    assert_eq!(
        outcome.journal,
        journal(&[node_record(0, &first), node_record(2, &first)])
    );
    assert_eq!(applied(same, &slots([&[1], &[1, 1], &[]]), &[]).answer, 1);
}

#[test]
fn sums_differences_and_the_length_of_a_label() {
    use Element::{Constant, Difference, Sum, Variable};
    let types = [VariableType::List, VariableType::Int];
    let (list, x) = (Variable(0), Variable(1));
    let to = |right: &[Element], atoms: &[i32]| relabelled(&types, &[x, list], right, atoms);
    let (int, number) = (Operand::Variable(1), Operand::Constant);
    assert_eq!(to(&[Sum(int, number(-3))], &[2]), label(&[-1]));
    assert_eq!(to(&[Difference(number(10), int)], &[12]), label(&[-2]));
    assert_eq!(to(&[Difference(int, int), list], &[5, 6]), label(&[0, 6]));
    assert_eq!(
        to(&[Sum(int, number(1))], &[i32::MAX - 1]),
        label(&[i32::MAX])
    );
    assert_eq!(to(&[Sum(int, number(1))], &[i32::MAX]), Err(6));
    assert_eq!(to(&[Sum(int, number(-1))], &[i32::MIN]), Err(6));
    assert_eq!(to(&[Difference(int, number(1))], &[i32::MIN]), Err(6));
    assert_eq!(to(&[Difference(number(0), int)], &[i32::MIN]), Err(6));
    let longest = [1, 2, 3, 4, 5, 6, 7, 8];
    assert_eq!(
        to(&[list, Constant(7)], &longest),
        label(&[2, 3, 4, 5, 6, 7, 8, 7])
    );
    assert_eq!(to(&[list, x, Constant(7)], &longest), Err(6));
    assert_eq!(
        to(&[list, list], &longest[..5]),
        label(&[2, 3, 4, 5, 2, 3, 4, 5])
    );
    assert_eq!(to(&[list, list], &longest[..6]), Err(6));
    assert_eq!(to(&[list, list, list], &longest[..4]), Err(6));
    assert_eq!(to(&[x; 8], &[3]), label(&[3; 8]));
}
