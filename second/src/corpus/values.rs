//! The values of labels and operands in the placement that a left side was taken from, and new labels made of
//! its variables.

use super::lefts::{Left, Value};
use super::palette::Palette;
use crate::layout::Layout;
use crate::random::Random;
use crate::tree::*;

/// The atoms of a label, or nothing if a sum or difference leaves 32 bits or there are too many of them.
pub fn atoms(layout: &Layout, label: &[Element], values: &[Value]) -> Option<Vec<i32>> {
    let mut atoms = Vec::new();
    for element in label {
        match element {
            Element::Constant(value) => atoms.push(*value),
            Element::Variable(index) => match &values[*index as usize] {
                Value::Int(value) => atoms.push(*value),
                Value::List(list) => atoms.extend(list),
            },
            Element::Sum(a, b) => atoms.push(number(a, values).checked_add(number(b, values))?),
            Element::Difference(a, b) => {
                atoms.push(number(a, values).checked_sub(number(b, values))?)
            }
        }
    }
    layout.holds(atoms.len()).then_some(atoms)
}

/// The number of an operand. Operands name int variables alone.
pub fn number(operand: &Operand, values: &[Value]) -> i32 {
    match operand {
        Operand::Constant(value) => *value,
        Operand::Variable(index) => match values[*index as usize] {
            Value::Int(value) => value,
            Value::List(_) => unreachable!("an operand is int"),
        },
    }
}

/// An int variable of the left side, or a constant.
pub fn operand(random: &mut Random, palette: &Palette, left: &Left) -> Operand {
    let variables = left.int_variables();
    if variables.is_empty() || random.chance(35) {
        let small = random.below(4) as i32;
        let drawn = palette.atom(random);
        Operand::Constant(if random.chance(60) { small } else { drawn })
    } else {
        Operand::Variable(random.pick(&variables))
    }
}

/// How often a right label has each number of elements, in percent.
const ELEMENTS: [usize; limit::ELEMENTS + 1] = [10, 43, 26, 11, 5, 2, 1, 1, 1];

/// A label for the right side that nearly always can be held in the placement.
pub fn new_label(random: &mut Random, palette: &Palette, left: &Left) -> Vec<Element> {
    if random.chance(6) {
        let atoms = palette.layout.atoms + usize::from(random.chance(30));
        return label_of_atoms(random, palette, left, atoms);
    }
    let careless = random.chance(if palette.extreme { 30 } else { 7 });
    for _ in 0..8 {
        let length = random.weighted(&ELEMENTS);
        let label: Vec<Element> = (0..length)
            .map(|_| new_element(random, palette, left))
            .collect();
        if careless || atoms(palette.layout, &label, &left.values).is_some() {
            return label;
        }
    }
    Vec::new()
}

/// A label of so many atoms in the placement, or of fewer where no element adds what is missing: the longest that can be held,
/// or one that can't.
fn label_of_atoms(random: &mut Random, palette: &Palette, left: &Left, atoms: usize) -> Vec<Element> {
    let mut label = Vec::new();
    let mut missing = atoms;
    while missing > 0 && label.len() < limit::ELEMENTS {
        let whole = |variable: &u8| match &left.values[usize::from(*variable)] {
            Value::List(list) => list.len() > 1 && list.len() <= missing,
            Value::Int(_) => false,
        };
        let lists: Vec<u8> = left.list_variables().into_iter().filter(whole).collect();
        let (element, more) = match lists.is_empty() {
            true => (one_atom(random, palette, left), 1),
            false => {
                let list = random.pick(&lists);
                (Element::Variable(list), length_of(&left.values[usize::from(list)]))
            }
        };
        label.push(element);
        missing -= more;
    }
    random.shuffle(&mut label);
    label
}

/// An int variable of the left side, or a constant.
fn one_atom(random: &mut Random, palette: &Palette, left: &Left) -> Element {
    match operand(random, palette, left) {
        Operand::Constant(value) => Element::Constant(value),
        Operand::Variable(index) => Element::Variable(index),
    }
}

/// How many atoms a variable stands for.
fn length_of(value: &Value) -> usize {
    match value {
        Value::Int(_) => 1,
        Value::List(list) => list.len(),
    }
}

fn new_element(random: &mut Random, palette: &Palette, left: &Left) -> Element {
    let lists = left.list_variables();
    let ints = left.int_variables();
    let some = |items: &[u8], weight: usize| if items.is_empty() { 0 } else { weight };
    match random.weighted(&[25, some(&ints, 25), some(&lists, 25), 16, 16]) {
        0 => Element::Constant(palette.atom(random)),
        1 => Element::Variable(random.pick(&ints)),
        2 => Element::Variable(random.pick(&lists)),
        3 => Element::Sum(
            operand(random, palette, left),
            operand(random, palette, left),
        ),
        _ => Element::Difference(
            operand(random, palette, left),
            operand(random, palette, left),
        ),
    }
}
