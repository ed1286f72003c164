//! Tests of a rule: true in the placement that the left side was taken from for the most part, each kind plain
//! and negated.

use super::hosts::Host;
use super::lefts::Left;
use super::palette::Palette;
use super::values::{number, operand};
use crate::random::Random;
use crate::tree::*;

pub fn conditions(random: &mut Random, palette: &Palette, host: &Host, left: &Left) -> Vec<Test> {
    let count = random.weighted(&[52, 27, 11, 5, 5]);
    (0..count)
        .map(|_| condition(random, palette, host, left))
        .collect()
}

fn condition(random: &mut Random, palette: &Palette, host: &Host, left: &Left) -> Test {
    let kind = if left.nodes.is_empty() || random.chance(30) {
        relation(random, palette, left)
    } else {
        about_nodes(random, host, left)
    };
    let wanted = random.chance(90);
    let negated = holds(&kind, host, left) != wanted;
    Test { negated, kind }
}

fn relation(random: &mut Random, palette: &Palette, left: &Left) -> TestKind {
    let relation = random.pick(&[Relation::Equal, Relation::Less]);
    TestKind::Relation(
        relation,
        operand(random, palette, left),
        operand(random, palette, left),
    )
}

fn about_nodes(random: &mut Random, host: &Host, left: &Left) -> TestKind {
    let (a, b) = (
        random.below(left.nodes.len()),
        random.below(left.nodes.len()),
    );
    let slot = left.nodes[a];
    let loops = host.loops_at(slot);
    match random.below(3) {
        0 => TestKind::Edge(a as u8, b as u8),
        1 => TestKind::InDegree(a as u8, degree(random, host.arriving(slot), loops)),
        _ => TestKind::OutDegree(a as u8, degree(random, host.leaving(slot), loops)),
    }
}

/// The right number mostly; else the one with loops left out, one whose low byte is right, or a small one.
fn degree(random: &mut Random, right: usize, loops: usize) -> u16 {
    let drawn = match random.weighted(&[58, 18, 5, 19]) {
        0 => right,
        1 => right - loops,
        2 => right + 0x100,
        _ => random.below(4),
    };
    drawn as u16
}

fn holds(kind: &TestKind, host: &Host, left: &Left) -> bool {
    let slot = |node: u8| left.nodes[node as usize];
    match *kind {
        TestKind::Edge(a, b) => host.has_edge(slot(a), slot(b)),
        TestKind::InDegree(node, count) => host.arriving(slot(node)) == count as usize,
        TestKind::OutDegree(node, count) => host.leaving(slot(node)) == count as usize,
        TestKind::Relation(Relation::Equal, a, b) => {
            number(&a, &left.values) == number(&b, &left.values)
        }
        TestKind::Relation(Relation::Less, a, b) => {
            number(&a, &left.values) < number(&b, &left.values)
        }
    }
}
