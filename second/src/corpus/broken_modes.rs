//! Damage to the mode of a rule.

use super::broken_programs::flip_bits;
use crate::encode::{field, rule, rule_fields};
use crate::random::Random;
use crate::tree::Rule;

/// Answer 16: one of the rules, which stand at the front of the image, gets a mode that is neither 0 nor 1, that isn't one
/// byte, that stands twice or before another field, or a field of another tag behind its mode. Where there is no rule, a few
/// bits are turned.
pub fn break_mode(random: &mut Random, rules: &[Rule], image: &mut Vec<u8>) {
    if rules.is_empty() {
        return flip_bits(random, image);
    }
    let (before, rest) = rules.split_at(random.below(rules.len()));
    let start: usize = before.iter().map(|earlier| rule(earlier).len()).sum();
    let whole = rule(&rest[0]);
    let broken = field(0x10, &broken_fields(random, &rest[0]).concat());
    image.splice(start..start + whole.len(), broken);
}

fn broken_fields(random: &mut Random, rule: &Rule) -> Vec<Vec<u8>> {
    let mut fields = rule_fields(rule);
    fields.truncate(5);
    let mode = field(0x16, &[random.below(2) as u8]);
    match random.below(7) {
        0 | 1 => fields.push(field(0x16, &[random.pick(&[2, 3, 0x80, 0xFF])])),
        2 => fields.push(field(0x16, &[])),
        3 => fields.push(field(0x16, &[0, 1])),
        4 => fields.extend([mode.clone(), mode]),
        5 => fields.insert(random.below(fields.len()), mode),
        _ => fields.extend([mode, field(random.pick(&[0x15, 0x17]), &[])]),
    }
    fields
}
