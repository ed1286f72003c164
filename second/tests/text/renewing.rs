//! Images of the old form: `renew` rewrites them, `dis` names it, a run refuses them. What an old image is comes from a writer
//! of the old form in this file.

use super::legal_programs;
use super::round_trips::random_runner_input;
use second::build::*;
use second::calls;
use second::carrying::{carried, Way};
use second::corpus;
use second::encode::{self, RunnerInput};
use second::layout::Core;
use second::random::Random;
use second::text::{assemble_as, disassemble, draw, draw_after, Procedures};
use second::tree::*;

/// What a renewed image is, whatever became of its host.
fn renew(image: &[u8]) -> Result<Vec<u8>, String> {
    second::text::renew(image).map(|renewed| renewed.image)
}

/// The image of a program without procedures in the old form, whose rules are those of today's.
fn old_image(program: &Program) -> Vec<u8> {
    let mut image: Vec<u8> = program.rules.iter().flat_map(encode::rule).collect();
    write_old(&program.main, &mut image);
    image
}

fn write_old(command: &Command, image: &mut Vec<u8>) {
    let (tag, parts): (u8, Vec<&Command>) = match command {
        Command::RuleSet(_) => (0x50, vec![]),
        Command::Sequence(parts) => (0x51, parts.iter().collect()),
        Command::Guarded {
            keep,
            guard,
            then,
            other,
        } => (0x52 + u8::from(*keep), vec![guard, then, other]),
        Command::Loop(body) => (0x54, vec![body]),
        Command::Skip => (0x55, vec![]),
        Command::Fail => (0x56, vec![]),
        Command::Break => (0x57, vec![]),
        Command::Procedure(_) => panic!("the old form has no calls"),
    };
    image.extend([tag, 0, 0]);
    let start = image.len();
    if let Command::RuleSet(numbers) = command {
        image.extend(numbers);
    }
    parts.into_iter().for_each(|part| write_old(part, image));
    let length = (image.len() - start) as u16;
    image[start - 2..start].copy_from_slice(&length.to_be_bytes());
}

/// How many commands of a program are guarded.
fn guarded_commands(command: &Command) -> usize {
    let inside: usize = command.parts().into_iter().map(guarded_commands).sum();
    inside + usize::from(matches!(command, Command::Guarded { .. }))
}

fn of_command(main: Command) -> Program {
    Program::without_procedures(vec![], main)
}

/// Checks that a program's old image is renewed to its image, with a byte more for each guarded command.
fn check(program: &Program) {
    let (old, today) = (old_image(program), encode::program(program));
    assert_eq!(old.len() + guarded_commands(&program.main), today.len());
    assert_eq!(renew(&old), Ok(today), "{program:?}");
}

/// A loop over a rule set and a try, whose guard is an if: in the old form and in today's.
#[rustfmt::skip]
const BY_HAND: [&[u8]; 2] = [
    &[
        0x54, 0, 29,
            0x51, 0, 26,
                0x50, 0, 2, 7, 8,
                0x53, 0, 18,
                    0x52, 0, 9, 0x55, 0, 0, 0x56, 0, 0, 0x57, 0, 0,
                    0x55, 0, 0,
                    0x56, 0, 0,
    ],
    &[
        0x54, 0, 31,
            0x51, 0, 28,
                0x50, 0, 2, 7, 8,
                0x59, 0, 20, 1,
                    0x59, 0, 10, 0, 0x55, 0, 0, 0x56, 0, 0, 0x57, 0, 0,
                    0x55, 0, 0,
                    0x56, 0, 0,
    ],
];

#[test]
fn each_if_and_try_takes_one_byte_more() {
    let [old, today] = BY_HAND;
    assert_eq!(renew(old).as_deref(), Ok(today));
    let inner = if_command(Command::Skip, Command::Fail, Command::Break);
    let outer = try_command(inner, Command::Skip, Command::Fail);
    let body = Command::Sequence(vec![Command::RuleSet(vec![7, 8]), outer]);
    assert_eq!(old_image(&of_command(looped(body))), old);
}

#[test]
fn published_programs_are_renewed() {
    let folder = concat!(env!("CARGO_MANIFEST_DIR"), "/../programs");
    let entries = std::fs::read_dir(folder).expect("a folder of programs");
    let names = entries.map(|entry| {
        entry
            .expect("an entry")
            .file_name()
            .into_string()
            .expect("text")
    });
    let mut guarded = 0;
    for name in names.filter(|name| name != "README.md") {
        let source =
            std::fs::read_to_string(format!("{folder}/{name}/{name}.gp2")).expect("a text");
        let assembly = assemble_as(&name, &source, Procedures::WrittenOut, Core::Wide);
        let program = assembly.expect("a legal program").program;
        guarded += guarded_commands(&program.main);
        check(&program);
    }
    assert!(guarded >= 10, "{guarded}");
}

/// A random program without procedures.
fn drawn(random: &mut Random, draw: fn(&mut Random) -> Program) -> Program {
    let drawn = std::iter::repeat_with(|| draw(random));
    let mut plain = drawn.filter(|program| program.procedures.is_empty());
    plain.next().expect("some have none")
}

#[test]
fn random_programs_are_renewed() {
    let mut random = Random::new(31);
    for draw in [legal_programs::program, corpus::legal_program] {
        let mut guarded = 0;
        for _ in 0..2000 {
            let program = drawn(&mut random, draw);
            guarded += guarded_commands(&program.main);
            check(&program);
        }
        assert!(guarded >= 2000, "{guarded}");
    }
}

#[test]
fn references_and_placement_need_not_hold() {
    check(&of_command(if_command(
        call(200),
        Command::Break,
        Command::Break,
    )));
}

#[test]
fn an_image_without_if_and_try_stays_as_it_is() {
    let mut random = Random::new(32);
    let mut plain = 0;
    for _ in 0..500 {
        let program = drawn(&mut random, legal_programs::program);
        if guarded_commands(&program.main) == 0 {
            plain += 1;
            let image = encode::program(&program);
            assert_eq!(renew(&image), Ok(image.clone()));
        }
    }
    assert!(plain >= 100, "{plain}");
}

#[test]
fn a_runner_image_of_eight_atoms_is_renewed_in_its_program_alone() {
    let mut random = Random::new(33);
    let mut renewed = 0;
    for _ in 0..500 {
        let today = random_runner_input(&mut random);
        let program = second::decode::program(&today.program).expect("a legal program");
        if !program.procedures.is_empty() {
            continue;
        }
        let old = RunnerInput {
            program: old_image(&program),
            ..today.clone()
        };
        if keeps_old_layout(&today) {
            continue;
        }
        renewed += 1;
        assert_eq!(
            renew(&encode::runner_input(&old)),
            Ok(encode::runner_input(&today))
        );
    }
    assert!(renewed >= 200, "{renewed}");
}

/// Whether both tables could be old ones.
fn keeps_old_layout(input: &RunnerInput) -> bool {
    carried(Way::Widen, &input.nodes, &input.edges).is_ok()
}

/// 512 guarded commands, every second of which keeps, in so many bytes of today's form, from 7,987 on.
fn full(bytes: usize) -> Program {
    let mut more = bytes - 7_987;
    let mut one = |keep| {
        let numbers = 1 + more.min(limit::RULE_NUMBERS - 1);
        more -= numbers - 1;
        guarded(
            keep,
            Command::RuleSet(vec![0; numbers]),
            Command::Skip,
            Command::Skip,
        )
    };
    let mut pair = |_| Command::Sequence(vec![one(false), one(true)]);
    let mut row = |_| Command::Sequence((0..limit::COMMANDS).map(&mut pair).collect());
    of_command(Command::Sequence(
        (0..limit::COMMANDS).map(&mut row).collect(),
    ))
}

#[test]
fn the_longest_images_just_fit() {
    let longest = full(8192);
    assert_eq!(
        (old_image(&longest).len(), encode::program(&longest).len()),
        (7680, 8192)
    );
    check(&longest);
    let refusal = |bytes| renew(&old_image(&full(bytes))).expect_err("not refused");
    assert_eq!(
        refusal(8193),
        "renewed, the program would have 8,193 bytes, over the limit of 8,192: it has to be split or made smaller by 1 byte"
    );
    assert_eq!(old_image(&full(8704)).len(), 8192);
    assert_eq!(
        refusal(8704),
        "renewed, the program would have 8,704 bytes, over the limit of 8,192: it has to be split or made smaller by 512 bytes"
    );
    assert_eq!(
        refusal(8705),
        "offset 8192, program: expected at most 8192 bytes, found 8193; this was no image of the old form either"
    );
}

/// A runner image of one node, which tables of eight atoms hold, around a program. The program starts at byte 57.
fn runner_around(program: &[u8]) -> Vec<u8> {
    encode::runner_input(&RunnerInput {
        nodes: encode::node_slot(mark::RED, false, &[1, 2, 3, 4, 5]).to_vec(),
        edges: vec![],
        records: 8,
        fuel: 10,
        program: program.to_vec(),
    })
}

#[test]
fn a_program_that_gets_too_long_is_refused_with_a_host_too() {
    let refused = renew(&runner_around(&old_image(&full(8193))));
    assert!(refused.is_err());
    assert_eq!(refused, renew(&old_image(&full(8193))));
}

/// Images that are not of the old form, and what is said of each.
fn not_old() -> Vec<(Vec<u8>, &'static str)> {
    let skip = [0x55, 0, 0];
    let old = |count: usize| [vec![0x52, 0, 3 * count as u8], skip.repeat(count)].concat();
    let today = [vec![0x59, 0, 10, 1], skip.repeat(3)].concat();
    let both = [vec![0x51, 0, 25], old(3), today.clone()].concat();
    vec![
        (today.clone(), "an image of today's form already, with guarded commands (0x59)"),
        (
            runner_around(&today),
            "an image of today's form already, with guarded commands (0x59)",
        ),
        (
            vec![],
            "offset 0, program: expected a command of the old form: tag 0x50 to 0x57; this is no image of the old form",
        ),
        (
            old(2),
            "offset 9, if: expected a command of the old form: tag 0x50 to 0x57; this is no image of the old form",
        ),
        (
            [vec![0x53], old(4)[1..].to_vec()].concat(),
            "offset 12, try: expected three commands and nothing more; this is no image of the old form",
        ),
        (
            both,
            "offset 15, sequence: expected a command of the old form: tag 0x50 to 0x57; this is no image of the old form",
        ),
        (
            vec![0x10, 0, 3, 0x11, 0, 9],
            "offset 6, variable types: expected a payload of 9 bytes; this is no image of the old form",
        ),
        (
            runner_around(&[0xff]),
            "offset 57, program: expected a command of the old form: tag 0x50 to 0x57; this is no image of the old form",
        ),
        (
            runner_around(&old(3))[..57 + 11].to_vec(),
            "offset 57, program: expected a payload of 12 bytes, found 11; the runner prints `input refused`",
        ),
    ]
}

#[test]
fn what_is_not_of_the_old_form_is_refused_with_the_reason() {
    for (image, reason) in not_old() {
        assert_eq!(renew(&image), Err(reason.to_string()));
    }
}

const IN_OLD_FORM: &str = "\
    an image of the old form, in which if (0x52) and try (0x53) are commands of their own; \
    `gp2 renew OLD -o NEW` rewrites it";

#[test]
fn dis_says_of_an_old_image_what_it_is() {
    let [old, _] = BY_HAND;
    assert_eq!(
        disassemble(Core::Wide, old),
        Err(format!(
            "offset 11, sequence: {IN_OLD_FORM}; a run answers 16"
        ))
    );
    let runner = runner_around(old);
    assert_eq!(
        disassemble(Core::Wide, &runner),
        Err(format!(
            "offset 68, sequence: {IN_OLD_FORM}; a run answers 16"
        ))
    );
}

#[test]
fn the_graph_of_an_old_image_is_drawn_before_the_run_alone() {
    let [old, today] = BY_HAND.map(runner_around);
    assert_eq!(draw(Core::Wide, &old), draw(Core::Wide, &today));
    assert!(draw(Core::Wide, &old).is_ok());
    assert_eq!(draw_after(Core::Wide, &old), Err(IN_OLD_FORM.to_string()));
}

#[test]
fn a_run_refuses_each_old_image() {
    let mut random = Random::new(34);
    let mut refused = 0;
    for _ in 0..1000 {
        let program = drawn(&mut random, legal_programs::program);
        let outcome = calls::run(&[], &[], &[], &old_image(&program), 0, &[7; 8]);
        let expected = match guarded_commands(&program.main) {
            0 => 2,
            _ => 16,
        };
        assert_eq!(outcome.answer, expected, "{program:?}");
        refused += u32::from(expected == 16);
    }
    assert!(refused >= 200, "{refused}");
}
