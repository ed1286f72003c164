//! Images with procedures: their texts, which assemble to the same bytes, and where damage to procedures and calls is found.

use super::helpers::{program, written_out, THREE_RULES};
use second::build::{call, if_command, looped, node, node_rule, try_command};
use second::encode::{self, field};
use second::layout::Core;
use second::text::{assemble_program, disassemble, renew};
use second::tree::Command::{self, Break, Fail, Procedure, Sequence, Skip};
use second::tree::{limit, mark, Program, Rule};

fn image(rules: &[Rule], procedures: &[Command], main: Command) -> Vec<u8> {
    encode::program(&Program {
        rules: rules.to_vec(),
        procedures: procedures.to_vec(),
        main,
    })
}

/// Checks that an image without rules comes back from its text.
fn check(procedures: &[Command], main: Command) {
    let image = image(&[], procedures, main);
    let text = disassemble(Core::Wide, &image).expect("a legal image");
    let program = assemble_program("again", &text);
    let program = program.unwrap_or_else(|complaint| panic!("{complaint}\n{text}"));
    assert_eq!(encode::program(&program), image, "{text}");
}

#[test]
fn the_text_of_an_image_with_procedures_reads_so() {
    let procedures = [
        Sequence(vec![call(0), Procedure(1)]),
        looped(Break),
        Sequence(vec![Skip]),
        Procedure(2),
    ];
    let main = Sequence(vec![
        Procedure(0),
        Sequence(vec![Procedure(2)]),
        if_command(Procedure(1), Fail, looped(Procedure(0))),
    ]);
    let image = image(&[Rule::default()], &procedures, main);
    let expected = "\
Main = P0; (P2;); if P1 then fail else P0!
P0 = r0; P1
P1 = break!
P2 = (skip;)
P3 = P2

r0()
[ | ]
=>
[ | ]
interface = {}
";
    assert_eq!(disassemble(Core::Wide, &image).expect("legal"), expected);
    let again = assemble_program("again", expected).expect("a legal text");
    assert_eq!(encode::program(&again), image);
}

#[test]
fn procedures_of_every_form_come_back() {
    let bodies = [
        Skip,
        Procedure(7),
        Sequence(vec![Procedure(7)]),
        Sequence(vec![Sequence(vec![Skip])]),
        Sequence(vec![Procedure(7), Fail]),
        looped(Sequence(vec![Procedure(7), Break])),
        try_command(Procedure(7), Procedure(7), Sequence(vec![Skip])),
        Fail,
    ];
    check(&bodies, Skip);
    for number in 0..bodies.len() as u8 {
        check(&bodies, Procedure(number));
        check(&bodies, Sequence(vec![Procedure(number)]));
    }
}

#[test]
fn all_procedures_come_back_called_or_not() {
    let last = limit::PROCEDURES as u8 - 1;
    let upwards: Vec<Command> = (0..last).map(|it| Procedure(it + 1)).collect();
    let upwards = [upwards, vec![Skip]].concat();
    let downwards: Vec<Command> = upwards
        .iter()
        .rev()
        .map(|it| match it {
            Procedure(number) => Procedure(last - number),
            other => other.clone(),
        })
        .collect();
    for procedures in [upwards, downwards, vec![Skip; limit::PROCEDURES]] {
        check(&procedures, Skip);
        check(&procedures, Sequence(vec![Skip, Fail]));
    }
    let without_last = vec![Skip; limit::PROCEDURES];
    check(
        &without_last,
        Sequence((0..=last).rev().map(Procedure).collect()),
    );
}

/// Paths are many: nothing that is made of such an image may follow them all.
#[test]
fn procedures_that_each_call_the_next_sixteen_times_come_back() {
    let next = |number| Sequence(vec![Procedure(number); limit::COMMANDS]);
    let mut procedures: Vec<Command> = (1..8).map(next).collect();
    procedures.push(Skip);
    check(&procedures, Procedure(0));
}

#[test]
fn long_procedures_come_back_from_broken_lines() {
    let row = Sequence(vec![
        if_command(Procedure(1), Procedure(1), Skip);
        limit::COMMANDS
    ]);
    let image = image(&[], &[row.clone(), Fail], Sequence(vec![row, Procedure(0)]));
    let text = disassemble(Core::Wide, &image).expect("legal");
    assert!(text.lines().all(|line| line.len() <= 90), "{text}");
    let program = assemble_program("again", &text).expect("a legal text");
    assert_eq!(encode::program(&program), image);
}

#[test]
fn a_text_is_printed_with_its_procedures_or_without() {
    let text = format!("Main = Both; Both\nBoth = a; b{THREE_RULES}");
    let printed = |program: &Program| disassemble(Core::Wide, &encode::program(program)).expect("legal");
    let kept = printed(&program(&text));
    assert!(
        kept.starts_with("Main = P0; P0\nP0 = r0; r1\n\nr0()"),
        "{kept}"
    );
    let out = printed(&written_out(&text));
    assert!(
        out.starts_with("Main = (r0; r1); (r0; r1)\n\nr0()"),
        "{out}"
    );
}

/// The message about an image that is refused.
fn refusal(image: &[u8]) -> String {
    disassemble(Core::Wide, image).expect_err("not refused")
}

const COMMAND: &str = "expected a command: tag 0x50, 0x51, or 0x54 to 0x59; a run answers 16";

#[test]
fn damaged_forms_say_where_reading_stopped() {
    let skip = [0x55, 0, 0];
    let procedure = field(0x17, &skip);
    let cases = [
        (
            [procedure.repeat(17), skip.to_vec()].concat(),
            "offset 96, program: expected at most 16 procedures, then a command; a run answers 16"
                .to_string(),
        ),
        (
            [&[0x17, 0, 0], &skip[..]].concat(),
            format!("offset 3, procedure: {COMMAND}"),
        ),
        (
            [field(0x17, &skip.repeat(2)), skip.to_vec()].concat(),
            "offset 6, procedure: expected one command and nothing more; a run answers 16"
                .to_string(),
        ),
        (
            [&procedure[..], &encode::rule(&Rule::default()), &skip].concat(),
            format!("offset 6, program: {COMMAND}"),
        ),
        (
            [&skip[..], &procedure].concat(),
            "offset 3, program: expected nothing behind the command; a run answers 16".to_string(),
        ),
        (
            vec![0x58, 0, 0],
            "offset 3, call: expected the number of a procedure; a run answers 16".to_string(),
        ),
        (
            vec![0x58, 0, 2, 0, 0],
            "offset 4, call: expected one byte and nothing more; a run answers 16".to_string(),
        ),
    ];
    for (damaged, expected) in cases {
        assert_eq!(refusal(&damaged), expected);
    }
}

/// A rule of 24 bytes.
fn delete() -> Rule {
    node_rule(&[node(mark::NONE, &[])], &[], 0)
}

#[test]
fn a_broken_reference_is_found_in_the_command_that_has_it() {
    let behind = |command| Sequence(vec![Skip, command]);
    let cases = [
        (
            image(&[], &[Skip], Procedure(1)),
            "offset 6, references: a call names procedure 1, but there are 1 procedures",
        ),
        (
            image(&[], &[Skip, behind(Procedure(5))], Procedure(9)),
            "offset 15, references: procedure 1: a call names procedure 5, but there are 2 procedures",
        ),
        (
            image(&[delete()], &[behind(Command::RuleSet(vec![0, 1]))], Skip),
            "offset 33, references: procedure 0: a rule set names rule 1, but there are 1 rules",
        ),
    ];
    for (damaged, expected) in cases {
        assert_eq!(refusal(&damaged), format!("{expected}; a run answers 17"));
    }
}

#[test]
fn a_break_without_a_loop_of_its_procedure_is_found() {
    let in_procedure = image(
        &[],
        &[Skip, Sequence(vec![Skip, Break])],
        looped(Procedure(1)),
    );
    let expected = "offset 15, placement: expected a loop of the same procedure around the break";
    let found = refusal(&in_procedure);
    assert!(found.starts_with(expected), "{found}");
    assert!(found.ends_with("; a run answers 18"), "{found}");
    let in_main = image(&[], &[looped(Break)], Sequence(vec![Procedure(0), Break]));
    let expected = "offset 16, placement: expected a loop around the break";
    let found = refusal(&in_main);
    assert!(found.starts_with(expected), "{found}");
}

/// The command inside so many sequences of one.
fn nested(inner: Command, levels: usize) -> Command {
    (0..levels).fold(inner, |command, _| Sequence(vec![command]))
}

#[test]
fn a_ring_is_found_at_the_call_that_closes_it() {
    let two = image(
        &[],
        &[Sequence(vec![Skip, Procedure(1)]), Procedure(0)],
        Skip,
    );
    let ring = "a ring of calls (procedure 0 calls 1 calls 0), expected procedures that don't call themselves";
    assert_eq!(
        refusal(&two),
        format!("offset 16, depth: {ring}; a run answers 19")
    );
    let itself = image(&[], &[Skip, looped(Procedure(1))], Procedure(1));
    let ring =
        "a ring of calls (procedure 1 calls 1), expected procedures that don't call themselves";
    assert_eq!(
        refusal(&itself),
        format!("offset 12, depth: {ring}; a run answers 19")
    );
}

/// Of two equal calls in a procedure the second lies too deep.
#[test]
fn excess_depth_is_found_at_the_call_that_leads_there() {
    let message = |at: usize| {
        format!("offset {at}, depth: with procedure 0 in its place the call comes to depth 17, expected at most 16; a run answers 19")
    };
    let main = image(&[], &[Skip], nested(Procedure(0), 15));
    assert_eq!(refusal(&main), message(6 + 45));
    let second = Sequence(vec![Procedure(0), Sequence(vec![Procedure(0)])]);
    let in_procedure = image(&[], &[nested(Skip, 13), second], Skip);
    assert_eq!(refusal(&in_procedure), message(45 + 3 + 3 + 4 + 3));
}

#[test]
fn images_with_procedures_or_calls_are_not_of_the_old_form() {
    let today = |what: &str| Err(format!("an image of today's form already, with {what}"));
    assert_eq!(
        renew(&image(&[], &[Skip], Skip)),
        today("procedures (0x17)")
    );
    assert_eq!(
        renew(&encode::command(&Procedure(0))),
        today("calls (0x58)")
    );
    let skip = [0x55, 0, 0];
    let old_if = [&[0x52, 0, 9], &skip.repeat(3)[..]].concat();
    let no_old = |at: usize, field: &str| {
        Err(format!("offset {at}, {field}: expected a command of the old form: tag 0x50 to 0x57; this is no image of the old form"))
    };
    let procedure = [field(0x17, &skip), old_if.clone()].concat();
    assert_eq!(renew(&procedure), no_old(0, "program"));
    let call = field(0x51, &[old_if, vec![0x58, 0, 1, 0]].concat());
    assert_eq!(renew(&call), no_old(15, "sequence"));
}
