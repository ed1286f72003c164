//! Each form of a command.

use super::helpers::*;
use second::tree::{limit, Command};

#[test]
fn a_rule_is_called_by_name_and_a_set_in_braces() {
    assert_eq!(main_command("Main = b"), call(1));
    assert_eq!(main_command("Main = {b}"), call(1));
    assert_eq!(
        main_command("Main = {c, a, c}"),
        Command::RuleSet(vec![2, 0, 2])
    );
}

#[test]
fn an_empty_set_always_fails() {
    assert_eq!(main_command("Main = {}"), Command::Fail);
}

#[test]
fn skip_fail_and_break_stand_for_themselves() {
    assert_eq!(main_command("Main = skip"), Command::Skip);
    assert_eq!(main_command("Main = fail"), Command::Fail);
    assert_eq!(main_command("Main = break!"), looped(Command::Break));
}

#[test]
fn semicolons_make_a_sequence_and_parentheses_keep_one_inside() {
    let nested = sequence(&[call(0), sequence(&[call(1), call(2)])]);
    assert_eq!(
        main_command("Main = a; b; c"),
        sequence(&[call(0), call(1), call(2)])
    );
    assert_eq!(main_command("Main = a; (b; c)"), nested);
    assert_eq!(main_command("Main = ((a; (b; c)))"), nested);
}

#[test]
fn parentheses_around_one_command_change_nothing() {
    assert_eq!(main_command("Main = (a)"), call(0));
    assert_eq!(
        main_command("Main = ((a)); b"),
        sequence(&[call(0), call(1)])
    );
}

#[test]
fn a_semicolon_before_the_closing_parenthesis_makes_a_sequence_of_one() {
    assert_eq!(main_command("Main = (a;)"), sequence(&[call(0)]));
    assert_eq!(
        main_command("Main = ((a;);)"),
        sequence(&[sequence(&[call(0)])])
    );
    assert_eq!(
        main_command("Main = ((a; b);)"),
        sequence(&[sequence(&[call(0), call(1)])])
    );
    assert_eq!(
        main_command("Main = (a; b;)"),
        sequence(&[call(0), call(1)])
    );
}

#[test]
fn each_exclamation_mark_is_a_loop() {
    assert_eq!(main_command("Main = a!"), looped(call(0)));
    assert_eq!(main_command("Main = a!!"), looped(looped(call(0))));
    assert_eq!(
        main_command("Main = {a, b}!"),
        looped(Command::RuleSet(vec![0, 1]))
    );
    let body = sequence(&[call(0), call(1)]);
    assert_eq!(
        main_command("Main = (a; b)!; c"),
        sequence(&[looped(body), call(2)])
    );
}

#[test]
fn an_if_without_else_skips() {
    assert_eq!(
        main_command("Main = if a then b else c"),
        if_command(call(0), call(1), call(2))
    );
    assert_eq!(
        main_command("Main = if a then b"),
        if_command(call(0), call(1), Command::Skip)
    );
}

#[test]
fn a_try_skips_in_each_absent_branch() {
    let skip = Command::Skip;
    assert_eq!(
        main_command("Main = try a then b else c"),
        try_command(call(0), call(1), call(2))
    );
    assert_eq!(
        main_command("Main = try a then b"),
        try_command(call(0), call(1), skip.clone())
    );
    assert_eq!(
        main_command("Main = try a else c"),
        try_command(call(0), skip.clone(), call(2))
    );
    assert_eq!(
        main_command("Main = try a"),
        try_command(call(0), skip.clone(), skip)
    );
}

#[test]
fn branches_reach_to_the_next_semicolon() {
    let two_tries = sequence(&[
        try_command(call(0), Command::Skip, Command::Skip),
        try_command(call(1), Command::Skip, Command::Skip),
    ]);
    assert_eq!(main_command("Main = try a; try b"), two_tries);
    let looped_branch = if_command(looped(call(0)), looped(call(1)), looped(call(2)));
    assert_eq!(main_command("Main = if a! then b! else c!"), looped_branch);
}

#[test]
fn an_else_belongs_to_the_nearest_if() {
    let inner = if_command(call(1), call(2), call(0));
    let outer = if_command(call(0), inner.clone(), Command::Skip);
    assert_eq!(main_command("Main = if a then if b then c else a"), outer);
    let chained = if_command(call(0), call(1), inner);
    assert_eq!(
        main_command("Main = if a then b else if b then c else a"),
        chained
    );
}

#[test]
fn a_guard_may_be_anything_in_parentheses() {
    let guard = sequence(&[call(0), looped(call(1))]);
    assert_eq!(
        main_command("Main = if (a; b!) then fail"),
        if_command(guard, Command::Fail, Command::Skip)
    );
    let inner = try_command(call(0), Command::Skip, Command::Skip);
    assert_eq!(
        main_command("Main = if (try a) then b"),
        if_command(inner, call(1), Command::Skip)
    );
}

#[test]
fn a_break_may_stand_in_a_branch_inside_a_loop() {
    let body = if_command(call(0), Command::Break, Command::Skip);
    assert_eq!(main_command("Main = (if a then break)!"), looped(body));
    let guard = looped(sequence(&[call(0), Command::Break]));
    assert_eq!(
        main_command("Main = if (a; break)! then b"),
        if_command(guard, call(1), Command::Skip)
    );
}

#[test]
fn sixteen_commands_are_one_sequence_and_more_are_grouped_by_sixteen() {
    let parts = |count: usize| vec![Command::Skip; count];
    let text = |count: usize| format!("Main = {}", vec!["skip"; count].join("; "));
    assert_eq!(main_command(&text(16)), sequence(&parts(16)));
    let seventeen = sequence(&[sequence(&parts(16)), Command::Skip]);
    assert_eq!(main_command(&text(17)), seventeen);
    let eighteen = sequence(&[sequence(&parts(16)), sequence(&parts(2))]);
    assert_eq!(main_command(&text(18)), eighteen);
    let full = sequence(&vec![sequence(&parts(16)); 16]);
    assert_eq!(main_command(&text(256)), full);
    assert_eq!(main_command(&text(257)), sequence(&[full, Command::Skip]));
}

#[test]
fn grouping_counts_toward_the_depth_of_the_commands_inside() {
    let loops = |count: usize| "!".repeat(count);
    let text = |last: &str| format!("Main = {}; {last}", vec!["skip"; 17].join("; "));
    let deepest = format!("skip{}", loops(limit::DEPTH - 3));
    main_command(&text(&deepest));
    let too_deep = format!("skip{}", loops(limit::DEPTH - 2));
    assert!(refusal(&text(&too_deep)).contains("a command of depth 17"));
}

#[test]
fn a_lone_command_behind_full_groups_is_not_one_deeper() {
    let deepest = format!("skip{}", "!".repeat(limit::DEPTH - 2));
    main_command(&format!(
        "Main = {}; {deepest}",
        vec!["skip"; 16].join("; ")
    ));
}

#[test]
fn commands_reach_depth_sixteen() {
    let text = |loops: usize| format!("Main = a{}", "!".repeat(loops));
    main_command(&text(15));
    let refused = refusal(&format!("{}{THREE_RULES}", text(16)));
    assert_eq!(refused, "1:8: a command of depth 17, expected at most 16");
}

#[test]
fn rules_that_nobody_calls_are_in_the_image_in_the_order_of_their_declarations() {
    let text = "b(x: list) [ (1, x) | ] => [ | ] interface = {}
Main = skip
a() [ | ] => [ (1, 2) | ] interface = {}";
    let program = program(text);
    let node_counts: Vec<usize> = program
        .rules
        .iter()
        .map(|rule| rule.left.nodes.len())
        .collect();
    assert_eq!(node_counts, [1, 0]);
}

#[test]
fn comments_and_line_ends_are_blanks() {
    let text = "// A comment.\r\nMain// another\n=\ta// third ;\n  ;b //last";
    assert_eq!(main_command(text), sequence(&[call(0), call(1)]));
}

/// The first text in the page on the notation.
#[test]
fn the_example_of_the_documentation_assembles() {
    let page = include_str!("../../../docs/NOTATION.md");
    let example = page.split("```").nth(1).expect("an example");
    let program = program(example);
    assert_eq!(program.rules.len(), 5);
    let reduce = try_command(call(1), Command::Skip, Command::RuleSet(vec![2, 3]));
    let check = if_command(call(4), Command::Fail, Command::Skip);
    assert_eq!(program.procedures, [reduce]);
    let reduced = looped(Command::Procedure(0));
    assert_eq!(program.main, sequence(&[call(0), reduced, check]));
}
