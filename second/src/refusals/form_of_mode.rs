//! The refusals 16 of a rule's mode: its byte, its length, and where it may stand.

use super::form::{image_of_fields, Parts};
use super::programs::{images, rule, Images};
use crate::encode::{self, field};
use crate::tree::Command;

/// The fields of the legal rule, which has no mode.
fn five_fields() -> Vec<Vec<u8>> {
    Parts::of(&rule()).fields()
}

/// The image of the legal rule with these bytes behind its five fields.
fn behind_tests(bytes: &[u8]) -> Vec<u8> {
    let mut fields = five_fields();
    fields.push(bytes.to_vec());
    image_of_fields(&fields)
}

fn mode(payload: &[u8]) -> Vec<u8> {
    field(0x16, payload)
}

pub(super) fn images_of_mode() -> Vec<Images> {
    let mut list = form_of_payload();
    list.extend(form_of_number());
    list.extend(form_of_place());
    list.extend(form_of_bytes_behind());
    list
}

/// Each beside a mode of one byte, 0 or 1.
fn form_of_payload() -> Vec<Images> {
    let refused = |name: &str, byte: u8, payload: &[u8]| {
        let accepted = behind_tests(&mode(&[byte]));
        images(name, &accepted, &behind_tests(&mode(payload)))
    };
    vec![
        refused("mode 2", 1, &[2]),
        refused("mode 0x80", 0, &[0x80]),
        refused("mode 0xff", 1, &[0xff]),
        refused("mode of no byte", 0, &[]),
        refused("mode of two bytes, 1 and 0", 1, &[1, 0]),
        refused("mode of two bytes, 0 and 1", 0, &[0, 1]),
        refused("mode of 256 bytes", 0, &[0; 256]),
    ]
}

/// A second mode behind the first.
fn form_of_number() -> Vec<Images> {
    let twice = |first: u8, second: u8| {
        let both = [mode(&[first]), mode(&[second])].concat();
        let name = format!("mode twice, {first} and {second}");
        images(name, &behind_tests(&mode(&[first])), &behind_tests(&both))
    };
    vec![twice(1, 1), twice(0, 0), twice(0, 1), twice(1, 0)]
}

/// The mode before each of the five fields, in the place of the last one, and outside of the rule.
fn form_of_place() -> Vec<Images> {
    let legal = behind_tests(&mode(&[1]));
    let mut list = Vec::new();
    for (number, tag) in (0x11..=0x15).enumerate() {
        let mut fields = five_fields();
        fields.insert(number, mode(&[1]));
        let name = format!("mode before field {tag:#x}");
        list.push(images(name, &legal, &image_of_fields(&fields)));
    }
    let mut fields = five_fields();
    fields[4] = mode(&[1]);
    list.push(images("mode for tests", &legal, &image_of_fields(&fields)));
    let rule = encode::rule(&rule());
    let skip = encode::command(&Command::Skip);
    let behind_rule = [rule, mode(&[1]), skip].concat();
    list.push(images("mode behind its rule", &legal, &behind_rule));
    list
}

/// What else stands behind the tests: another tag, a mode that is cut or too long for its rule, or bytes behind a mode.
fn form_of_bytes_behind() -> Vec<Images> {
    let refused =
        |name: &str, bytes: &[u8]| images(name, &behind_tests(&mode(&[1])), &behind_tests(bytes));
    let behind_mode = |bytes: &[u8]| [&mode(&[1])[..], bytes].concat();
    vec![
        refused("tag 0x17 behind the tests", &field(0x17, &[1])),
        refused("tag 0x10 behind the tests", &field(0x10, &[1])),
        refused("tag 0x17 behind the mode", &behind_mode(&field(0x17, &[1]))),
        refused("zero byte behind the mode", &behind_mode(&[0])),
        refused("mode cut to its tag", &[0x16]),
        refused("mode cut to half its length", &[0x16, 0]),
        refused("mode cut to its head", &[0x16, 0, 1]),
        refused("mode longer than its rule", &[0x16, 0, 2, 1]),
    ]
}
