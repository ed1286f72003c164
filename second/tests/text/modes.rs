//! The clause `roots = ..` of a rule: how it is read, refused and printed, and where a damaged mode is found in an image.

use super::helpers::*;
use second::build::with_mode;
use second::encode;
use second::layout::Core;
use second::text::{assemble_program, disassemble, renew};
use second::tree::*;

const PRESERVING: Option<Mode> = Some(Mode::Preserving);
const REFLECTING: Option<Mode> = Some(Mode::Reflecting);

/// The mode of the empty rule with this behind its interface.
fn mode(clause: &str) -> Option<Mode> {
    rule(&format!("r() [ | ] => [ | ] interface = {{}} {clause}")).mode
}

#[test]
fn a_rule_has_the_mode_that_is_written() {
    assert_eq!(mode(""), None);
    assert_eq!(mode("roots = preserving"), PRESERVING);
    assert_eq!(mode("roots=reflecting // the byte 0"), REFLECTING);
    assert_eq!(mode("where 1 < 2 roots = preserving"), PRESERVING);
    assert_eq!(mode("where not (1 < 2)\nroots = reflecting"), REFLECTING);
    assert_eq!(mode("where 1 < 2"), None);
}

#[test]
fn the_clause_is_one_rules_alone() {
    let text = "a() [ | ] => [ | ] interface = {} roots = preserving
        b() [ | ] => [ | ] interface = {}
        c() [ | ] => [ | ] interface = {} roots = reflecting";
    let modes: Vec<_> = rules(text).iter().map(|rule| rule.mode).collect();
    assert_eq!(modes, [PRESERVING, None, REFLECTING]);
}

#[test]
fn its_words_stay_names() {
    let program = program(
        "Main = roots; preserving; host!
        roots(roots, preserving: int)
        [ (roots, roots:preserving) | ] => [ (roots, roots) | ] interface = {roots}
        where roots = preserving and 1 < roots
        roots = preserving
        preserving() [ | ] => [ | ] interface = {}
        host() [ | ] => [ | ] interface = {} roots = reflecting
        host [ | ]",
    );
    let modes: Vec<_> = program.rules.iter().map(|rule| rule.mode).collect();
    assert_eq!(modes, [PRESERVING, None, REFLECTING]);
    assert_eq!(program.rules[0].tests.len(), 2);
}

#[test]
fn a_rule_named_roots_may_stand_behind_another() {
    let rules = rules(
        "a() [ | ] => [ | ] interface = {}
        roots() [ | ] => [ | ] interface = {} where 1 = 1
        roots_2() [ | ] => [ | ] interface = {}",
    );
    assert!(rules.iter().all(|rule| rule.mode.is_none()));
    assert_eq!(rules.len(), 3);
}

#[test]
fn each_rule_of_a_bidirectional_edge_has_the_mode() {
    let rules = rules(
        "r() [ (1, empty) (2, empty) | (e(B), 1, 2, empty) ] => [ | ] interface = {}
        roots = preserving",
    );
    assert_eq!([rules[0].mode, rules[1].mode], [PRESERVING; 2]);
    assert_ne!(rules[0].left, rules[1].left);
}

#[test]
fn refused_clauses() {
    const RULE: &str = "r() [ | ] => [ | ] interface = {}";
    let cases = [
        (
            "roots = kept",
            "3:9: found `kept`, expected `preserving` or `reflecting` behind `roots =`",
        ),
        (
            "roots = 1",
            "3:9: found `1`, expected `preserving` or `reflecting`",
        ),
        (
            "roots =",
            "3:8: found the end of the text, expected `preserving` or `reflecting`",
        ),
        (
            "roots preserving",
            "3:7: found `preserving`, expected `(` and the variables of the rule `roots`",
        ),
        (
            "roots = preserving\nroots = preserving",
            "4:1: a second `roots = ..`, expected one in a rule",
        ),
        (
            "roots = reflecting where 1 = 1",
            "3:20: `where` behind `roots = ..`, expected the condition before it",
        ),
        (
            "roots = preserving reflecting",
            "3:30: found the end of the text, expected `(` and the variables of the rule `reflecting`",
        ),
    ];
    for (clause, expected) in cases {
        check_rules(&[(&format!("{RULE}\n{clause}"), expected)]);
    }
    check_rules(&[(
        "r() [ | ] => [ | ] roots = preserving interface = {}",
        "2:20: found `roots`, expected `interface` and `= {..}` behind the right graph",
    )]);
}

/// The empty rule with this mode, and skip.
fn image(mode: Option<Mode>) -> Vec<u8> {
    encode::program(&Program::without_procedures(
        vec![with_mode(mode, Rule::default())],
        Command::Skip,
    ))
}

/// The bytes of the empty rule with so many more behind its five fields, and skip.
fn by_hand(more: &[u8]) -> Vec<u8> {
    let five = [
        0x11, 0, 0, 0x12, 0, 0, 0x13, 0, 0, 0x14, 0, 1, 0, 0x15, 0, 0,
    ];
    let rule = encode::field(0x10, &[&five[..], more].concat());
    [&rule[..], &[0x55, 0, 0]].concat()
}

#[test]
fn the_mode_is_the_sixth_field() {
    assert_eq!(image(None), by_hand(&[]));
    assert_eq!(image(REFLECTING), by_hand(&[0x16, 0, 1, 0]));
    assert_eq!(image(PRESERVING), by_hand(&[0x16, 0, 1, 1]));
}

#[test]
fn every_mode_is_printed_and_comes_back_byte_for_byte() {
    let printed = [
        (None, ""),
        (REFLECTING, "roots = reflecting\n"),
        (PRESERVING, "roots = preserving\n"),
    ];
    for (mode, clause) in printed {
        let text = disassemble(Core::Wide, &image(mode)).expect("legal");
        let rule = "r0()\n[ | ]\n=>\n[ | ]\ninterface = {}\n";
        assert_eq!(text, format!("Main = skip\n\n{rule}{clause}"));
        let again = assemble_program("again", &text).expect("legal");
        assert_eq!(encode::program(&again), image(mode));
    }
}

#[test]
fn the_clause_is_printed_behind_the_condition() {
    let text = "r0()\n[ | ]\n=>\n[ | ]\ninterface = {}\nwhere 1 < 2\nroots = preserving\n";
    let whole = format!("Main = skip\n\n{text}");
    assert_eq!(disassemble(Core::Wide, &encode::program(&program(&whole))), Ok(whole));
}

#[test]
fn an_image_of_the_old_form_keeps_its_modes() {
    let skips = [0x55, 0, 0].repeat(3);
    for more in [&[][..], &[0x16, 0, 1, 0], &[0x16, 0, 1, 1]] {
        let rule = by_hand(more)[..19 + more.len()].to_vec();
        let old = [&rule[..], &[0x53, 0, 9], &skips].concat();
        let today = [&rule[..], &[0x59, 0, 10, 1], &skips].concat();
        assert_eq!(renew(&old).map(|renewed| renewed.image), Ok(today));
    }
    let damaged = [&by_hand(&[0x16, 0, 1, 2])[..], &[]].concat();
    assert_eq!(
        renew(&damaged),
        Err("offset 22, mode: expected a mode: 1 preserving or 0 reflecting; this is no image of the old form".to_string())
    );
}

#[test]
fn a_damaged_mode_is_refused_with_its_place() {
    const BYTE: &str = "expected a mode: 1 preserving or 0 reflecting";
    const END: &str =
        "expected the end of the rule behind its five fields, or a sixth, the mode (0x16)";
    let cases: [(&[u8], String); 9] = [
        (&[0x16, 0, 1, 2], format!("offset 22, mode: {BYTE}")),
        (&[0x16, 0, 1, 0xff], format!("offset 22, mode: {BYTE}")),
        (&[0x16, 0, 0], format!("offset 22, mode: {BYTE}")),
        (
            &[0x16, 0, 2, 1, 0],
            "offset 23, mode: expected one byte and nothing more".to_string(),
        ),
        (
            &[0x16, 0, 1, 0, 0x16, 0, 1, 0],
            "offset 23, rule: expected the end of the rule behind its mode".to_string(),
        ),
        (
            &[0x16, 0, 1, 1, 0],
            "offset 23, rule: expected the end of the rule behind its mode".to_string(),
        ),
        (
            &[0x16, 0, 2, 1],
            "offset 22, mode: expected a payload of 2 bytes".to_string(),
        ),
        (
            &[0x16],
            "offset 20, mode: expected the two bytes of a length".to_string(),
        ),
        (&[0x17, 0, 1, 1], format!("offset 19, rule: {END}")),
    ];
    for (more, expected) in cases {
        let found = disassemble(Core::Wide, &by_hand(more)).expect_err("not refused");
        assert_eq!(found, format!("{expected}; a run answers 16"), "{more:?}");
    }
}

#[test]
fn a_mode_before_the_tests_is_refused_there() {
    let mut fields = encode::rule_fields(&with_mode(PRESERVING, Rule::default()));
    fields.swap(4, 5);
    let rule = encode::field(0x10, &fields.concat());
    let found = disassemble(Core::Wide, &[&rule[..], &[0x55, 0, 0]].concat());
    let expected = "offset 16, rule: expected a field with tag 0x15, tests; a run answers 16";
    assert_eq!(found, Err(expected.to_string()));
}
