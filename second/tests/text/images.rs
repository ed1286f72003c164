//! Damaged images, which are refused with the place, and drawings of host graphs.

use super::legal_programs;
use super::round_trips::{random_runner_input, runner_again};
use second::build::{call, if_command, looped, node, node_rule};
use second::calls;
use second::corpus;
use second::encode::{self, RunnerInput};
use second::layout::{Core, Layout};
use second::listing::{read_input, run_input};
use second::random::Random;
use second::text::{assemble_program, disassemble, draw, draw_after, image_graph};
use second::tree::*;

fn refusal(image: &[u8]) -> String {
    disassemble(Core::Wide, image).expect_err("not refused")
}

/// A rule that deletes one unmarked, unlabelled, plain node, in 24 bytes.
fn delete() -> Rule {
    node_rule(&[node(mark::NONE, &[])], &[], 0)
}

fn image(rules: Vec<Rule>, main: Command) -> Vec<u8> {
    encode::program(&Program::without_procedures(rules, main))
}

fn runner(program: Vec<u8>) -> RunnerInput {
    RunnerInput {
        nodes: encode::node_slot(0, false, &[]).to_vec(),
        edges: encode::edge_slot(0, 0, 0, &[]).to_vec(),
        records: 8,
        fuel: 10,
        program,
    }
}

/// The image with another byte at this place.
fn with_byte(image: &[u8], at: usize, byte: u8) -> Vec<u8> {
    let mut changed = image.to_vec();
    changed[at] = byte;
    changed
}

#[test]
fn damaged_forms_say_where_reading_stopped() {
    let legal = image(vec![delete()], call(0));
    let cases = [
        (
            Vec::new(),
            "offset 0, program: expected a command: tag 0x50, 0x51, or 0x54 to 0x59; a run answers 16",
        ),
        (
            with_byte(&legal, 12, 5),
            "offset 12, node: expected a node mark: 0 to 4, or 6 for any; a run answers 16",
        ),
        (
            with_byte(&legal, 13, 2),
            "offset 13, node: expected a root flag: 0 or 1; a run answers 16",
        ),
        (
            legal[..legal.len() - 1].to_vec(),
            "offset 27, rule set: expected a payload of 1 bytes; a run answers 16",
        ),
        (
            [&legal[..], &[0]].concat(),
            "offset 28, program: expected nothing behind the command; a run answers 16",
        ),
    ];
    for (damaged, expected) in cases {
        assert_eq!(refusal(&damaged), expected);
    }
}

#[test]
fn broken_references_are_found_in_rules_and_commands() {
    let mut broken = delete();
    broken.interface = 1;
    let in_rule = image(vec![delete(), broken], Command::Skip);
    let found = refusal(&in_rule);
    assert!(
        found.starts_with("offset 24, references: rule 1: "),
        "{found}"
    );
    assert!(found.ends_with("; a run answers 17"), "{found}");
    let set = looped(Command::Sequence(vec![
        Command::Skip,
        Command::RuleSet(vec![0, 1]),
    ]));
    let found = refusal(&image(vec![delete()], set));
    assert!(found.starts_with("offset 33, references: "), "{found}");
    assert!(found.ends_with("; a run answers 17"), "{found}");
}

#[test]
fn a_misplaced_break_is_found() {
    let guard = Command::Sequence(vec![Command::Skip, Command::Break]);
    let branching = if_command(guard, Command::Break, Command::Break);
    let found = refusal(&image(vec![], looped(branching)));
    let expected = "expected a loop around the break with no guard of if or try between";
    assert_eq!(
        found,
        format!("offset 13, placement: {expected}; a run answers 18")
    );
}

#[test]
fn an_image_that_is_too_long_says_so() {
    let found = refusal(&[0x55; 8193]);
    assert_eq!(
        found,
        "offset 8192, program: expected at most 8192 bytes, found 8193; a run answers 14"
    );
}

#[test]
fn runner_images_are_refused_with_the_runs_answer() {
    let legal = runner(image(vec![], Command::Skip));
    let changes: [(fn(&mut RunnerInput), &str); 7] = [
        (
            |input| input.nodes.push(0),
            "offset 3, node table: expected 0 to 512 slots of 36 bytes, found 37 bytes; a run answers 10",
        ),
        (
            |input| input.edges = vec![0; 40 * 1025],
            "offset 42, edge table: expected 0 to 1,024 slots of 40 bytes, found 41000 bytes; a run answers 11",
        ),
        (
            |input| input.fuel = 1_000_001,
            "offset 90, fuel: expected at most 1000000, found 1000001; a run answers 13",
        ),
        (
            |input| input.program = vec![0x55; 8193],
            "offset 8289, program: expected at most 8192 bytes, found 8193; a run answers 14",
        ),
        (
            |input| input.nodes[2] = 2,
            "offset 3, node slot 0: its root flag is neither 0 nor 1; a run answers 15",
        ),
        (
            |input| input.edges[7] = 1,
            "offset 42, edge slot 0: its target 1 is no live node slot; a run answers 15",
        ),
        (
            |input| input.program[2] = 1,
            "offset 100, skip: expected a payload of 1 bytes; a run answers 16",
        ),
    ];
    for (change, expected) in changes {
        let mut input = legal.clone();
        change(&mut input);
        assert_eq!(refusal(&encode::runner_input(&input)), expected);
    }
}

/// A runner image of empty tables and `skip`, with these payloads of its numbers.
fn fields(records: &[u8], fuel: &[u8]) -> Vec<u8> {
    let parts = [
        (1, &[][..]),
        (2, &[]),
        (3, records),
        (4, fuel),
        (5, &[0x55, 0, 0]),
    ];
    parts
        .map(|(tag, payload)| encode::field(tag, payload))
        .concat()
}

/// Damaged runner images, and what is said of each.
fn damaged_inputs() -> [(Vec<u8>, &'static str); 6] {
    let legal = encode::runner_input(&runner(image(vec![], Command::Skip)));
    [
        (
            with_byte(&legal, 39, 3),
            "offset 39, edge table: expected a field with tag 0x02",
        ),
        (
            with_byte(&legal, 1, 9),
            "offset 3, node table: expected a payload of 2340 bytes, found 97",
        ),
        (
            with_byte(&legal, 85, 4),
            "offset 85, journal records: expected at most 1,024 records",
        ),
        (
            legal[..2].to_vec(),
            "offset 1, node table: expected the two bytes of a length",
        ),
        (
            [&legal[..], &[0]].concat(),
            "offset 100, runner image: expected nothing behind the program",
        ),
        (
            vec![1; 65_537],
            "offset 65536, runner image: expected at most 65,536 bytes",
        ),
    ]
}

#[test]
fn refused_inputs_say_where_the_runner_stops() {
    for (damaged, expected) in damaged_inputs() {
        assert_eq!(
            refusal(&damaged),
            format!("{expected}; the runner prints `input refused`")
        );
    }
    let found = refusal(&fields(&[0], &[0; 4]));
    assert_eq!(
        found,
        "offset 9, journal records: expected two bytes; the runner prints `input refused`"
    );
    let found = refusal(&fields(&[0; 2], &[0; 5]));
    assert_eq!(
        found,
        "offset 14, fuel: expected four bytes; the runner prints `input refused`"
    );
}

/// The answer that a refusal names.
fn named_answer(refusal: &str) -> Option<u32> {
    let (_, number) = refusal.rsplit_once("a run answers ")?;
    Some(number.parse().expect("a number"))
}

/// What a run answers before anything runs, or none where it would start.
fn answer_before_running(program: &[u8]) -> Option<u32> {
    let outcome = calls::run(&[], &[], &[], program, 0, &[0; 8]);
    (outcome.answer >= 9).then_some(outcome.answer)
}

#[test]
fn each_changed_byte_is_refused_with_the_runs_answer_or_comes_back() {
    let mut random = Random::new(5);
    for _ in 0..40 {
        let legal = encode::program(&legal_programs::program(&mut random));
        for _ in 0..100 {
            let mut changed = legal.clone();
            let at = random.below(changed.len());
            changed[at] = random.pick(&[
                0,
                1,
                2,
                3,
                changed[at].wrapping_add(1),
                random.clone().byte(),
            ]);
            if changed[0] == 1 {
                continue;
            }
            match disassemble(Core::Wide, &changed) {
                Err(reason) => assert_eq!(
                    named_answer(&reason),
                    answer_before_running(&changed),
                    "{reason}"
                ),
                Ok(text) => {
                    assert_eq!(answer_before_running(&changed), None);
                    let program = assemble_program("again", &text).expect("legal text");
                    assert_eq!(encode::program(&program), changed, "{text}");
                }
            }
        }
    }
}

/// Checks that the text of a runner image comes back to it, or is refused as the runner refuses the image.
fn check_runner_image(image: &[u8]) {
    match (disassemble(Core::Wide, image), read_input(image)) {
        (Err(reason), None) => assert!(reason.ends_with("`input refused`"), "{reason}"),
        (Err(reason), Some(input)) => {
            let answer = run_input(&without_running(input)).answer;
            assert_eq!(named_answer(&reason), Some(answer), "{reason}");
        }
        (Ok(_), Some(_)) => assert_eq!(runner_again(image), image),
        (Ok(text), None) => panic!("the runner refuses\n{text}"),
    }
}

/// The same input with no fuel, if it may have any.
fn without_running(mut input: RunnerInput) -> RunnerInput {
    if input.fuel <= calls::MOST_FUEL {
        input.fuel = 0;
    }
    input
}

#[test]
fn each_changed_runner_image_is_refused_with_the_runs_answer_or_comes_back() {
    let mut random = Random::new(6);
    for _ in 0..40 {
        let legal = encode::runner_input(&random_runner_input(&mut random));
        for _ in 0..50 {
            let mut changed = legal.clone();
            let at = 1 + random.below(changed.len() - 1);
            changed[at] =
                random.pick(&[0, 1, 2, changed[at].wrapping_add(1), random.clone().byte()]);
            check_runner_image(&changed);
        }
    }
}

#[test]
fn images_of_the_corpus_come_back_or_are_refused_with_the_runs_answer() {
    for image in corpus::images(7, corpus::fixed_count() + 300) {
        if image.first() == Some(&0x01) {
            check_runner_image(&image);
        }
    }
}

#[test]
fn every_shortened_image_is_refused() {
    let legal = image(vec![delete()], looped(call(0)));
    for length in 0..legal.len() {
        assert!(refusal(&legal[..length]).ends_with("a run answers 16"));
    }
    let legal = encode::runner_input(&runner(legal));
    for length in 1..legal.len() {
        assert!(refusal(&legal[..length]).ends_with("the runner prints `input refused`"));
    }
}

/// A graph with every mark, a root, a gap and parallel edges.
fn drawn() -> RunnerInput {
    let nodes = [
        encode::node_slot(0, true, &[5, -7]),
        [0; Layout::BASE.node_length()],
        encode::node_slot(mark::RED, false, &[]),
        encode::node_slot(mark::GREEN, false, &[1]),
        encode::node_slot(mark::BLUE, false, &[2]),
        encode::node_slot(mark::GREY, true, &[3]),
    ];
    let edges = [
        encode::edge_slot(0, 0, 2, &[]),
        encode::edge_slot(mark::DASHED, 2, 0, &[8, 9]),
        encode::edge_slot(mark::RED, 3, 3, &[]),
        encode::edge_slot(mark::GREEN, 3, 4, &[4]),
        encode::edge_slot(mark::BLUE, 3, 4, &[]),
    ];
    let program = image(vec![], Command::Skip);
    RunnerInput {
        nodes: nodes.concat(),
        edges: edges.concat(),
        records: 0,
        fuel: 1,
        program,
    }
}

const DRAWING: &str = r#"digraph host {
  node [shape=circle, style=filled, fillcolor=white];
  n0 [xlabel="0", label="5:-7", shape=doublecircle];
  n2 [xlabel="2", label="", fillcolor=tomato];
  n3 [xlabel="3", label="1", fillcolor=palegreen];
  n4 [xlabel="4", label="2", fillcolor=lightskyblue];
  n5 [xlabel="5", label="3", shape=doublecircle, fillcolor=lightgrey];
  n0 -> n2 [label=""];
  n2 -> n0 [label="8:9", style=dashed];
  n3 -> n3 [label="", color=red];
  n3 -> n4 [label="4", color=green];
  n3 -> n4 [label="", color=blue];
}
"#;

#[test]
fn a_drawing_has_a_line_for_each_live_slot() {
    let image = encode::runner_input(&drawn());
    assert_eq!(draw(Core::Wide, &image).as_deref(), Ok(DRAWING));
    assert_eq!(draw_after(Core::Wide, &image).as_deref(), Ok(DRAWING));
}

#[test]
fn the_graph_alone_is_text_with_slot_numbers() {
    let expected = "\
[
  (0(R), 5:-7)
  ()
  (2, empty # red)
  (3, 1 # green)
  (4, 2 # blue)
  (5(R), 3 # grey)
|
  (0, 0, 2, empty)
  (1, 2, 0, 8:9 # dashed)
  (2, 3, 3, empty # red)
  (3, 3, 4, 4 # green)
  (4, 3, 4, empty # blue)
]
";
    assert_eq!(
        image_graph(Core::Wide, &encode::runner_input(&drawn())).as_deref(),
        Ok(expected)
    );
}

#[test]
fn a_drawing_after_the_run_shows_the_result() {
    let mut input = runner(image(vec![delete()], call(0)));
    input.edges = vec![];
    let after = draw_after(Core::Wide, &encode::runner_input(&input)).expect("a result");
    assert_eq!(
        after,
        "digraph host {\n  node [shape=circle, style=filled, fillcolor=white];\n}\n"
    );
}

#[test]
fn there_is_no_drawing_without_a_result_or_a_host() {
    let failing = encode::runner_input(&runner(image(vec![], Command::Fail)));
    assert!(draw(Core::Wide, &failing).is_ok());
    let expected = "the run answers 1, expected a result (0) to draw";
    assert_eq!(draw_after(Core::Wide, &failing), Err(expected.to_string()));
    let alone = image(vec![], Command::Skip);
    let expected = "offset 0: no host graph, expected a runner image (tag 0x01)";
    for tool in [draw, draw_after, image_graph] {
        assert_eq!(tool(Core::Wide, &alone), Err(expected.to_string()));
    }
}

#[test]
fn a_damaged_program_leaves_its_host_to_draw() {
    let input = runner(vec![0xff]);
    assert!(draw(Core::Wide, &encode::runner_input(&input)).is_ok());
    let expected = "the run answers 16, expected a result (0) to draw";
    assert_eq!(
        draw_after(Core::Wide, &encode::runner_input(&input)),
        Err(expected.to_string())
    );
}
