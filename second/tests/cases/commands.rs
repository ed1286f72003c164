//! Commands: their order, what guards and loops give back, and what ends a run.

use super::bytes::*;
use super::rules::*;
use second::calls::run;
use second::encode::{edge_slot, node_slot};
use second::tree::*;

#[test]
fn a_failing_body_gives_back_marks_roots_labels_and_deletions() {
    let change = rule(
        (
            vec![
                node(mark::GREY, &[Element::Constant(1)]),
                root(mark::NONE, &[]),
            ],
            vec![edge(mark::NONE, 0, 1, &[])],
        ),
        (
            vec![root(mark::BLUE, &[Element::Constant(2)])],
            vec![edge(mark::RED, 0, 0, &[])],
        ),
        1,
    );
    let nodes = [
        node_slot(mark::GREY, false, &[1]),
        node_slot(mark::NONE, true, &[]),
    ]
    .concat();
    let edges = edge_slot(mark::NONE, 0, 1, &[]);
    let rules = [change];
    let outcome = run_on(&nodes, &edges, &[&image(&rules, call(0))], AMPLE_FUEL);
    assert_eq!(numbers(&outcome), (0, 1, 4));
    assert_eq!(
        outcome.nodes,
        [node_slot(mark::BLUE, true, &[2]), FREE].concat()
    );
    assert_eq!(outcome.edges, edge_slot(mark::RED, 0, 0, &[]));
    let body = Command::Sequence(vec![call(0), Command::Fail]);
    let outcome = run_on(&nodes, &edges, &[&image(&rules, looped(body))], AMPLE_FUEL);
    expect(&outcome, (0, 4, 0), &nodes, &edges, &[]);
}

#[test]
fn no_guard_or_loop_catches_answers_2_to_6() {
    let add_node = node_rule(&[], &[node(0, &[])], 0);
    let add_edge = {
        let sides = || vec![node(mark::NONE, &[])];
        rule((sides(), vec![]), (sides(), vec![edge(0, 0, 0, &[])]), 1)
    };
    let overflow = {
        let sum = Element::Difference(Operand::Constant(i32::MIN), Operand::Constant(1));
        node_rule(&[], &[node(0, &[sum])], 0)
    };
    let stops = [
        (2, vec![], looped(Command::Skip)),
        (3, vec![add_node], call(0)),
        (4, vec![add_edge], call(0)),
        (5, vec![mark_red()], call(0)),
        (6, vec![overflow], call(0)),
    ];
    for (answer, rules, stop) in stops {
        let wrapped = [
            if_command(stop.clone(), Command::Skip, Command::Skip),
            try_command(stop.clone(), Command::Skip, Command::Skip),
            looped(stop.clone()),
            try_command(looped(stop), Command::Skip, Command::Skip),
        ];
        for main in wrapped {
            let fuel = 20;
            let outcome = run(&PLAIN, &[], &[], &image(&rules, main), fuel, &[0; 8]);
            assert_eq!(outcome.answer, answer);
            assert_eq!(outcome.nodes, PLAIN);
        }
    }
}

#[test]
fn records_of_a_successful_body_serve_an_outer_rollback() {
    let inner = Command::Sequence(vec![looped(call(0)), Command::Fail]);
    let program = image(&[mark_red()], looped(inner));
    let nodes = [PLAIN, PLAIN].concat();
    let outcome = run_on(&nodes, &[], &[&program], AMPLE_FUEL);
    expect(&outcome, (0, 7, 0), &nodes, &[], &[]);
}

#[test]
fn undoing_frees_journal_records() {
    let main = if_command(call(0), call(0), Command::Fail);
    let program = image(&[mark_red()], main);
    let outcome = run(&PLAIN, &[], &[0; RECORD], &program, 3, &[0; 8]);
    assert_eq!(numbers(&outcome), (0, 3, 1));
    assert_eq!(outcome.nodes, RED);
    let twice = image(&[mark_red()], Command::Sequence(vec![call(0), call(0)]));
    let outcome = run(&[PLAIN, PLAIN].concat(), &[], &[0; RECORD], &twice, 3, &[0; 8]);
    assert_eq!(numbers(&outcome), (5, 3, 0));
}

#[test]
fn a_break_keeps_the_graph_through_branches_and_sequences() {
    let branch = try_command(call(0), Command::Break, Command::Fail);
    let body = Command::Sequence(vec![branch, Command::Fail]);
    let program = image(&[mark_red()], looped(body));
    let outcome = run_on(&[PLAIN, PLAIN].concat(), &[], &[&program], AMPLE_FUEL);
    let records = [node_record(0, &PLAIN)];
    expect(&outcome, (0, 5, 1), &[RED, PLAIN].concat(), &[], &records);
}

#[test]
fn a_failing_guard_is_undone_before_the_else() {
    for main in [if_command, try_command] {
        let guard = Command::Sequence(vec![call(0), Command::Fail]);
        let command = main(guard, Command::Fail, call(0));
        let outcome = run_on(&PLAIN, &[], &[&image(&[mark_red()], command)], AMPLE_FUEL);
        expect(&outcome, (0, 5, 1), &RED, &[], &[node_record(0, &PLAIN)]);
    }
}

/// Commands over M on two plain nodes with fuel 50, and their answer, steps and records. Each record stands for
/// a node that became red.
fn control_flow() -> Vec<(Command, (u32, u32, u32))> {
    use Command::{Break, Fail, Sequence, Skip};
    let m = || call(0);
    vec![
        (Sequence(vec![m(), m()]), (0, 3, 2)),
        (Sequence(vec![m(), m(), m()]), (1, 4, 0)),
        (Sequence(vec![Fail, m()]), (1, 2, 0)),
        (Sequence(vec![m(), Sequence(vec![m()])]), (0, 4, 2)),
        (looped(m()), (0, 4, 2)),
        (if_command(m(), m(), Fail), (0, 3, 1)),
        (try_command(m(), m(), Fail), (0, 3, 2)),
        (if_command(m(), Fail, Skip), (1, 3, 0)),
        (try_command(m(), Fail, Skip), (1, 3, 0)),
        (if_command(Fail, Fail, m()), (0, 3, 1)),
        (try_command(Fail, Fail, m()), (0, 3, 1)),
        (if_command(Sequence(vec![m(), Fail]), Skip, m()), (0, 5, 1)),
        (try_command(Sequence(vec![m(), Fail]), Skip, m()), (0, 5, 1)),
        (
            try_command(if_command(m(), Skip, Fail), m(), Fail),
            (0, 5, 1),
        ),
        (if_command(looped(m()), m(), Fail), (0, 6, 1)),
        (try_command(looped(m()), Skip, Fail), (0, 6, 2)),
        (
            if_command(looped(Sequence(vec![m(), Break])), Skip, Fail),
            (0, 6, 0),
        ),
        (looped(try_command(m(), Fail, Skip)), (0, 4, 0)),
        (looped(if_command(m(), Break, Skip)), (0, 4, 0)),
        (looped(try_command(m(), Break, Skip)), (0, 4, 1)),
        (looped(try_command(Fail, Skip, Break)), (0, 4, 0)),
        (looped(if_command(Skip, m(), Skip)), (0, 10, 2)),
        (looped(Sequence(vec![m(), Break, m()])), (0, 4, 1)),
        (Sequence(vec![looped(Fail), m()]), (0, 4, 1)),
        (Sequence(vec![looped(Break), m()]), (0, 4, 1)),
        (looped(Sequence(vec![looped(Break), m()])), (0, 13, 2)),
        (looped(Sequence(vec![m(), looped(m()), Fail])), (0, 7, 0)),
        (looped(looped(Fail)), (2, 50, 0)),
        (looped(looped(Break)), (2, 50, 0)),
    ]
}

#[test]
fn commands_run_in_document_01s_order() {
    for (main, expected) in control_flow() {
        let program = image(&[mark_red()], main.clone());
        let outcome = run_on(&[PLAIN, PLAIN].concat(), &[], &[&program], 50);
        assert_eq!(numbers(&outcome), expected, "{main:?}");
        let red = outcome.nodes.chunks(NODE).filter(|slot| *slot == RED).count();
        assert_eq!(red as u32, expected.2, "{main:?}");
    }
}

#[test]
fn the_first_listed_rule_with_a_match_is_applied() {
    let grey_to_blue = node_rule(&[node(mark::GREY, &[])], &[node(mark::BLUE, &[])], 1);
    let rules = [grey_to_blue, mark_red()];
    let grey = node_slot(mark::GREY, false, &[]);
    let both = [PLAIN, grey].concat();
    let outcome = run_on(
        &both,
        &[],
        &[&image(&rules, Command::RuleSet(vec![0, 1]))],
        1,
    );
    assert_eq!(
        outcome.nodes,
        [PLAIN, node_slot(mark::BLUE, false, &[])].concat()
    );
    let outcome = run_on(
        &both,
        &[],
        &[&image(&rules, Command::RuleSet(vec![1, 0]))],
        1,
    );
    assert_eq!(outcome.nodes, [RED, grey].concat());
    let outcome = run_on(
        &RED,
        &[],
        &[&image(&rules, Command::RuleSet(vec![0, 1]))],
        1,
    );
    expect(&outcome, (1, 1, 0), &RED, &[], &[]);
}

#[test]
fn a_loop_may_take_all_the_fuel_there_is() {
    let nodes = PLAIN.repeat(512);
    let edges = edge_slot(0, 0, 511, &[]).repeat(1024);
    let program = field(0x54, &[&SKIP]);
    let outcome = run(
        &nodes,
        &edges,
        &[0; RECORD * 1024],
        &program,
        1_000_000,
        &[0; 8],
    );
    assert_eq!(numbers(&outcome), (2, 1_000_000, 0));
}
