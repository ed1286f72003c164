//! The refusals 16 of an image and a rule as wholes, and the list of all of them.

use super::programs::{images, rule, Images};
use super::{form_of_commands, form_of_graphs, form_of_mode, form_of_procedures, form_of_tests};
use crate::encode::{self, field};
use crate::tree::{Command, Rule, VariableType};

/// The number 16.
pub(super) fn images_of_form() -> Vec<Images> {
    let mut images = form_of_image();
    images.extend(form_of_rule());
    images.extend(form_of_mode::images_of_mode());
    images.extend(form_of_types());
    images.extend(form_of_interface());
    images.extend(form_of_graphs::images_of_graphs());
    images.extend(form_of_graphs::images_of_elements());
    images.extend(form_of_tests::images_of_tests());
    images.extend(form_of_commands::images_of_commands());
    images.extend(form_of_commands::images_of_depth());
    images.extend(form_of_procedures::images_of_procedures());
    images.extend(form_of_procedures::images_of_calls());
    images
}

fn form_of_image() -> Vec<Images> {
    let skip = encode::command(&Command::Skip);
    let rule = encode::rule(&Rule::default());
    let legal = [rule.clone(), skip.clone()].concat();
    let rules = |count: usize| [rule.repeat(count), skip.clone()].concat();
    let refused = |name: &str, bytes: &[u8]| images(name, &legal, bytes);
    vec![
        images("empty image", &skip, &[]),
        refused("rule without a command", &rule),
        images("33 rules", &rules(32), &rules(33)),
        refused("two commands", &[&legal[..], &skip].concat()),
        refused("rule behind the command", &[&skip[..], &rule].concat()),
        refused("zero byte behind the command", &[&legal[..], &[0]].concat()),
        images("command of tag 0x11", &skip, &[0x11, 0, 0]),
        images("command of tag 0x4f", &skip, &[0x4f, 0, 0]),
        images("command of tag 0x5a", &skip, &[0x5a, 0, 0]),
        images("command of tag 0", &skip, &[0, 0, 0]),
        images("tag without a length", &skip, &skip[..1]),
        images("tag with half a length", &skip, &skip[..2]),
        images("length beyond the image", &skip, &[0x55, 0, 1]),
        images("length of 256 beyond the image", &skip, &[0x55, 1, 0]),
        refused("rule cut by a byte", &legal[..rule.len() - 1]),
        refused(
            "rule longer than the image",
            &[&[0x10, 0xff, 0xff], &legal[3..]].concat(),
        ),
    ]
}

/// The payloads of a rule's first five fields.
#[derive(Clone)]
pub(super) struct Parts {
    pub(super) types: Vec<u8>,
    pub(super) left: Vec<u8>,
    pub(super) right: Vec<u8>,
    pub(super) interface: Vec<u8>,
    pub(super) tests: Vec<u8>,
}

impl Parts {
    pub(super) fn of(rule: &Rule) -> Parts {
        let types = rule.variables.iter().map(|kind| match kind {
            VariableType::Int => 1,
            VariableType::List => 2,
        });
        Parts {
            types: types.collect(),
            left: encode::graph(&rule.left),
            right: encode::graph(&rule.right),
            interface: vec![rule.interface],
            tests: rule.tests.iter().flat_map(encode::test).collect(),
        }
    }

    pub(super) fn fields(&self) -> Vec<Vec<u8>> {
        vec![
            field(0x11, &self.types),
            field(0x12, &self.left),
            field(0x13, &self.right),
            field(0x14, &self.interface),
            field(0x15, &self.tests),
        ]
    }

    pub(super) fn image(&self) -> Vec<u8> {
        image_of_fields(&self.fields())
    }
}

pub(super) fn image_of_fields(fields: &[Vec<u8>]) -> Vec<u8> {
    let rule = field(0x10, &fields.concat());
    [rule, encode::command(&Command::Skip)].concat()
}

/// The image of the legal rule with some of its payloads exchanged.
pub(super) fn rule_with(edit: impl Fn(&mut Parts)) -> Vec<u8> {
    let mut parts = Parts::of(&rule());
    edit(&mut parts);
    parts.image()
}

fn form_of_rule() -> Vec<Images> {
    let legal = rule_with(|_| ());
    let fields = Parts::of(&rule()).fields();
    let refused_fields = |name: String, edit: &dyn Fn(&mut Vec<Vec<u8>>)| {
        let mut fields = fields.clone();
        edit(&mut fields);
        images(name, &legal, &image_of_fields(&fields))
    };
    let mut list = vec![refused_fields("rule without fields".into(), &|f| f.clear())];
    for (number, tag) in [0x11, 0x12, 0x13, 0x14, 0x15].into_iter().enumerate() {
        let missing = format!("rule without field {tag:#x}");
        list.push(refused_fields(missing, &|f| drop(f.remove(number))));
        let twice = format!("rule with field {tag:#x} twice");
        list.push(refused_fields(twice, &|f| {
            f.insert(number, f[number].clone())
        }));
        let other = format!("rule with tag 0x16 for {tag:#x}");
        list.push(refused_fields(other, &|f| f[number][0] = 0x16));
    }
    for (number, tag) in [0x11, 0x12, 0x13, 0x14].into_iter().enumerate() {
        let swapped = format!("rule with field {tag:#x} behind the next");
        list.push(refused_fields(swapped, &|f| f.swap(number, number + 1)));
    }
    list.push(refused_fields(
        "rule with a byte behind its fields".into(),
        &|f| f.push(vec![0]),
    ));
    list.push(refused_fields("tests longer than the rule".into(), &|f| {
        f[4][2] += 1
    }));
    list
}

fn form_of_types() -> Vec<Images> {
    let types = |types: &[u8]| rule_with(|parts| parts.types = types.to_vec());
    vec![
        images(
            "7 variables",
            &types(&[1, 2, 1, 1, 2, 2]),
            &types(&[1, 2, 1, 1, 2, 2, 1]),
        ),
        images("variable type 0", &types(&[1, 2, 1]), &types(&[1, 2, 0])),
        images("variable type 3", &types(&[1, 2, 1]), &types(&[1, 2, 3])),
    ]
}

fn form_of_interface() -> Vec<Images> {
    let interface = |bytes: &[u8]| rule_with(|parts| parts.interface = bytes.to_vec());
    vec![
        images("interface of no byte", &interface(&[2]), &interface(&[])),
        images(
            "interface of two bytes",
            &interface(&[2]),
            &interface(&[0, 2]),
        ),
    ]
}
