//! Every refusal of the two calls and of the runner, at the layout of each core: its number, that the lowest number wins, what it
//! leaves untouched, and its report. The inputs are those of `second::refusals`.

use std::collections::HashSet;
use std::process::{Command, Output, Stdio};

use second::calls::Outcome;
use second::decode;
use second::depth;
use second::encode;
use second::host::Host;
use second::layout::{Core, Layout};
use second::listing::{listing, listing_at};
use second::observer::Unobserved;
use second::references;
use second::refusals::{
    of_run, of_runner, of_undo, run_refused_for, runner_inputs, undo_refused_for, RunCall, UndoCall,
};

const LAYOUTS: [&Layout; 2] = [Core::Wide.layout(), Core::Small.layout()];

fn run_at(layout: &Layout, call: &RunCall) -> Outcome {
    call.outcome_at(layout, &mut Unobserved)
}

fn refused_run(call: &RunCall, answer: u32) -> Outcome {
    let given = [&call.nodes, &call.edges, &call.journal, &call.report];
    refused(given, answer)
}

fn refused_undo(call: &UndoCall, answer: u32) -> Outcome {
    let given = [&call.nodes, &call.edges, &call.journal, &call.report];
    refused(given, answer)
}

/// The buffers as they were, but for the report: it is zeros, on 9 what it was.
fn refused(given: [&Vec<u8>; 4], answer: u32) -> Outcome {
    let [nodes, edges, journal, report] = given.map(Vec::clone);
    Outcome {
        answer,
        nodes,
        edges,
        journal,
        report: match answer {
            9 => report,
            _ => vec![0; 8],
        },
    }
}

/// Each set of these numbers but the empty one.
fn sets(numbers: &[u32]) -> Vec<Vec<u32>> {
    let in_set = |set: u32, place: usize| set >> place & 1 == 1;
    let members = |set: u32| {
        let numbered = numbers.iter().enumerate();
        numbered
            .filter(|(place, _)| in_set(set, *place))
            .map(|(_, number)| *number)
            .collect()
    };
    (1..1 << numbers.len()).map(members).collect()
}

#[test]
fn each_clause_of_run_refuses_by_its_number_and_touches_nothing_but_the_report() {
    for layout in LAYOUTS {
        for it in of_run(layout) {
            let outcome = run_at(layout, &it.refused);
            assert_eq!(outcome, refused_run(&it.refused, it.answer), "{}", it.name);
        }
    }
}

#[test]
fn the_accepted_neighbour_of_each_clause_is_run() {
    for layout in LAYOUTS {
        for it in of_run(layout) {
            let answer = run_at(layout, &it.accepted).answer;
            assert!(answer <= 2, "{}: the accepted one answers {answer}", it.name);
        }
    }
}

#[test]
fn each_clause_of_undo_refuses_by_its_number_and_touches_nothing_but_the_report() {
    for layout in LAYOUTS {
        for it in of_undo(layout) {
            let outcome = it.refused.outcome_at(layout);
            assert_eq!(outcome, refused_undo(&it.refused, it.answer), "{}", it.name);
            assert_eq!(it.accepted.outcome_at(layout).answer, 0, "{}", it.name);
        }
    }
}

#[test]
fn every_number_has_refusals_and_every_name_is_different() {
    for layout in LAYOUTS {
        let run: Vec<(String, u32)> = of_run(layout).into_iter().map(|it| (it.name, it.answer)).collect();
        let undo: Vec<(String, u32)> = of_undo(layout).into_iter().map(|it| (it.name, it.answer)).collect();
        for number in 9..=19 {
            assert!(run.iter().any(|(_, answer)| *answer == number), "{number}");
        }
        for number in [9, 10, 11, 12, 20] {
            assert!(undo.iter().any(|(_, answer)| *answer == number), "{number}");
        }
        let names: HashSet<&String> = run.iter().chain(&undo).map(|(name, _)| name).collect();
        assert_eq!(names.len(), run.len() + undo.len());
    }
}

#[test]
fn the_lowest_number_of_any_set_wins_in_run() {
    let numbers: Vec<u32> = (9..=19).collect();
    for layout in LAYOUTS {
        for set in sets(&numbers) {
            let call = run_refused_for(layout, &set);
            assert_eq!(run_at(layout, &call), refused_run(&call, set[0]), "{set:?}");
        }
        assert!(run_at(layout, &run_refused_for(layout, &[])).answer <= 1);
    }
}

#[test]
fn the_lowest_number_of_any_set_wins_in_undo() {
    for layout in LAYOUTS {
        for set in sets(&[9, 10, 11, 12, 20]) {
            let call = undo_refused_for(layout, &set);
            assert_eq!(call.outcome_at(layout), refused_undo(&call, set[0]), "{set:?}");
        }
        assert_eq!(undo_refused_for(layout, &[]).outcome_at(layout).answer, 0);
    }
}

#[test]
fn undo_looks_at_counted_records_and_lengths_alone() {
    for layout in LAYOUTS {
        let mut call = undo_refused_for(layout, &[]);
        call.nodes.fill(0xFF);
        call.edges.fill(0xFF);
        call.count = 2;
        let counted = 2 * layout.record_length();
        call.journal[counted..].fill(0xFF);
        let outcome = call.outcome_at(layout);
        assert_eq!(outcome.answer, 0);
        assert_eq!(outcome.report, [0, 0, 0, 0, 0, 0, 0, 2]);
        assert_eq!(outcome.journal, [vec![0; counted], vec![0xFF; counted]].concat());
    }
}

#[test]
fn each_prefix_of_a_legal_image_answers_16() {
    let call = run_refused_for(&Layout::BASE, &[]);
    for length in 0..call.program.len() {
        let cut = RunCall {
            program: call.program[..length].to_vec(),
            ..call.clone()
        };
        assert_eq!(cut.outcome(), refused_run(&cut, 16), "{length} bytes");
    }
}

#[test]
fn damage_is_said_with_its_place_and_what_was_expected() {
    for it in of_run(&Layout::BASE).into_iter().filter(|it| it.answer == 16) {
        let image = &it.refused.program;
        let damage = decode::program(image).expect_err(&it.name);
        assert!(damage.at <= image.len(), "{}", it.name);
        assert!(
            !damage.field.is_empty() && !damage.expected.is_empty(),
            "{}",
            it.name
        );
    }
    let damage = decode::program(&[0x51, 0, 6, 0x55, 0, 0, 0x5a, 0, 0]).unwrap_err();
    assert_eq!((damage.at, &damage.field[..]), (6, "sequence"));
}

#[test]
fn a_broken_layout_reference_or_depth_has_a_reason() {
    for it in of_run(&Layout::BASE) {
        match it.answer {
            15 => {
                let host = Host::read(&Layout::BASE, &it.refused.nodes, &it.refused.edges);
                assert!(!host.expect_err(&it.name).is_empty());
            }
            17 => {
                let program = decode::program(&it.refused.program).expect(&it.name);
                assert!(!references::check(&program).expect_err(&it.name).is_empty());
            }
            19 => {
                let program = decode::program(&it.refused.program).expect(&it.name);
                let fault = depth::check(&program).expect_err(&it.name);
                assert!(!fault.reason.is_empty(), "{}", it.name);
            }
            _ => {}
        }
    }
}

#[test]
fn the_runner_refuses_each_input_that_isnt_the_five_fields() {
    for it in of_runner() {
        assert_eq!(listing(&it.refused), "input refused\n", "{}", it.name);
        let accepted = listing(&it.accepted);
        assert!(accepted.starts_with("answer "), "{}: {accepted}", it.name);
    }
}

/// The answer 12 comes at the small core alone, whose journal has fewer records than an input can ask for.
#[test]
fn the_runner_lists_the_number_of_a_refused_call() {
    for layout in LAYOUTS {
        let inputs = runner_inputs(layout);
        for number in 10..=19 {
            let listed = inputs.iter().any(|(_, _, answer)| *answer == number);
            assert!(listed || (number, *layout) == (12, Layout::BASE), "{number}");
        }
        for (name, input, answer) in inputs {
            let text = listing_at(layout, &encode::runner_input(&input));
            assert_eq!(text, format!("answer {answer} steps 0 records 0\n"), "{name}");
        }
    }
}

/// What the program prints with these arguments and nothing on standard input.
fn program(arguments: &[&str]) -> Output {
    let mut program = Command::new(env!("CARGO_BIN_EXE_second"));
    program.args(arguments).stdin(Stdio::null());
    program.output().expect("the program starts")
}

#[test]
fn the_program_says_what_it_cant_do_and_prints_nothing_else() {
    let uses: [(&[&str], &str); 9] = [
        (&[], "usage: second run [--core wide|small] IMAGE|-"),
        (&["walk", "-"], "usage: second run [--core wide|small] IMAGE|-"),
        (&["run"], "usage: second run [--core wide|small] IMAGE|-"),
        (&["run", "-", "-"], "usage: second run [--core wide|small] IMAGE|-"),
        (&["run", "--core", "small"], "usage: second run"),
        (&["run", "--core", "tiny", "-"], "tiny is no core, expected wide or small"),
        (&["run", "no/such/image"], "no/such/image can't be read"),
        (&["run", "--core", "small", "no/such/image"], "no/such/image can't be read"),
        (&["corpus", "--seed"], "usage: second corpus"),
    ];
    for (arguments, message) in uses {
        let output = program(arguments);
        let error = String::from_utf8(output.stderr).expect("a message");
        assert!(error.contains(message), "{arguments:?}: {error}");
        assert!(!output.status.success(), "{arguments:?}");
        assert!(output.stdout.is_empty(), "{arguments:?}");
    }
}

#[test]
fn the_program_lists_a_refused_input() {
    for arguments in [&["run", "-"][..], &["run", "--core", "small", "-"]] {
        let output = program(arguments);
        assert!(output.status.success());
        assert_eq!(output.stdout, b"input refused\n");
    }
}

/// Case P at the small core as it is stored.
#[test]
fn the_program_runs_an_image_at_the_core_that_is_named() {
    let image = concat!(env!("CARGO_MANIFEST_DIR"), "/../crates/small_runner/stdin");
    let text = |arguments: &[&str]| String::from_utf8(program(arguments).stdout).expect("a listing");
    let expected = "answer 0 steps 3 records 4\nnode 0 red plain 5\nnode 1 blue plain 12\nedge 0 1 0 none\n";
    assert_eq!(text(&["run", "--core", "small", image]), expected);
    let refused = "answer 10 steps 0 records 0\n";
    assert_eq!([text(&["run", image]), text(&["run", "--core", "wide", image])], [refused; 2]);
}
