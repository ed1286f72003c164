//! The refusals 16 of tests.

use super::form::rule_with;
use super::programs::{images, Images};
use crate::encode::field;

pub(super) fn images_of_tests() -> Vec<Images> {
    let image = |tests: &[u8]| rule_with(|parts| parts.tests = tests.to_vec());
    let mut list = form_of_list();
    list.extend(form_of_edge_test());
    list.extend(form_of_degree_test("in-degree", 0x41));
    list.extend(form_of_degree_test("out-degree", 0x42));
    list.extend(form_of_relation_test());
    let tests = list.into_iter();
    tests
        .map(|(name, accepted, refused)| {
            images(format!("test: {name}"), &image(&accepted), &image(&refused))
        })
        .collect()
}

fn form_of_list() -> Vec<Images> {
    let test = field(0x40, &[0, 0, 1]);
    vec![
        images("5 of them", &test.repeat(4), &test.repeat(5)),
        images("tag 0x3f", &test, &field(0x3f, &[0, 0, 1])),
        images("tag 0x44", &test, &field(0x44, &[0, 0, 1])),
        images("byte behind the tests", &test, &[&test[..], &[0]].concat()),
        images("longer than the tests", &test, &[0x40, 0, 4, 0, 0, 1]),
    ]
}

fn form_of_edge_test() -> Vec<Images> {
    let payload =
        |name: &str, refused: &[u8]| images(name, &field(0x40, &[1, 0, 1]), &field(0x40, refused));
    vec![
        payload("edge negated by 2", &[2, 0, 1]),
        payload("edge negated by 255", &[255, 0, 1]),
        payload("edge without bytes", &[]),
        payload("edge of no node", &[1]),
        payload("edge of one node", &[1, 0]),
        payload("edge of three nodes", &[1, 0, 1, 0]),
    ]
}

fn form_of_degree_test(words: &str, tag: u8) -> Vec<Images> {
    let payload = |name: &str, refused: &[u8]| {
        let name = format!("{words} {name}");
        images(name, &field(tag, &[1, 0, 0, 2]), &field(tag, refused))
    };
    vec![
        payload("negated by 2", &[2, 0, 0, 2]),
        payload("without bytes", &[]),
        payload("without a node", &[1]),
        payload("without a number", &[1, 0]),
        payload("with a number of 1 byte", &[1, 0, 2]),
        payload("with a number of 3 bytes", &[1, 0, 0, 0, 2]),
    ]
}

fn form_of_relation_test() -> Vec<Images> {
    let constant = &field(0x30, &[0, 0, 0, 1])[..];
    let sum = &field(0x32, &[constant, constant].concat())[..];
    let relation =
        |head: &[u8], operands: &[&[u8]]| field(0x43, &[head, &operands.concat()].concat());
    let refused = |name: &str, head: &[u8], operands: &[&[u8]]| {
        let accepted = relation(&[1, 1], &[constant, constant]);
        images(
            format!("relation {name}"),
            &accepted,
            &relation(head, operands),
        )
    };
    vec![
        refused("negated by 2", &[2, 1], &[constant, constant]),
        refused("of number 0", &[1, 0], &[constant, constant]),
        refused("of number 3", &[1, 3], &[constant, constant]),
        refused("without bytes", &[], &[]),
        refused("of no operand", &[1, 1], &[]),
        refused("of one operand", &[1, 1], &[constant]),
        refused(
            "of three operands",
            &[1, 1],
            &[constant, constant, constant],
        ),
        refused("whose first operand is a sum", &[1, 1], &[sum, constant]),
        refused("whose second operand is a sum", &[1, 1], &[constant, sum]),
        refused(
            "with a constant of 3 bytes",
            &[1, 1],
            &[constant, &field(0x30, &[0, 0, 1])],
        ),
    ]
}
