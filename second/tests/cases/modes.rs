//! The mode of a rule: which nodes it matches, which flag a node takes, and the records of that.

use super::bytes::*;
use super::rules::*;
use second::encode::node_slot;
use second::tree::*;

const ROOT: [u8; NODE] = unlabelled(0, 1);
const RED_ROOT: [u8; NODE] = unlabelled(1, 1);

/// M with a sixth field of this byte.
fn m_with(mode: u8) -> Vec<u8> {
    let mut rule = [&M[..], &[0x16, 0, 1, mode]].concat();
    rule[2] += 4;
    rule
}

#[test]
fn case_15_in_each_mode() {
    let on = |host: &[u8; NODE], rule: &[u8]| run_on(host, &[], &[rule, &RULE_0], AMPLE_FUEL);
    for rule in [M.as_slice(), &m_with(0)] {
        expect(&on(&ROOT, rule), (1, 1, 0), &ROOT, &[], &[]);
        let records = [node_record(0, &PLAIN)];
        expect(&on(&PLAIN, rule), (0, 1, 1), &RED, &[], &records);
    }
    let preserving = m_with(1);
    let records = [node_record(0, &ROOT)];
    expect(&on(&ROOT, &preserving), (0, 1, 1), &RED_ROOT, &[], &records);
    let records = [node_record(0, &PLAIN)];
    expect(&on(&PLAIN, &preserving), (0, 1, 1), &RED, &[], &records);
    assert_eq!(on(&PLAIN, &m_with(2)).answer, 16);
}

#[test]
fn a_rooted_left_node_needs_a_root_in_every_mode() {
    let unroot = node_rule(&[root(mark::NONE, &[])], &[node(mark::RED, &[])], 1);
    let modes = [None, Some(Mode::Reflecting), Some(Mode::Preserving)];
    for rule in modes.map(|mode| with_mode(mode, unroot.clone())) {
        assert_eq!(applied(rule.clone(), &[PLAIN], &[]).answer, 1);
        let outcome = applied(rule, &[PLAIN, ROOT], &[]);
        let records = [node_record(1, &ROOT)];
        expect(&outcome, (0, 1, 1), &[PLAIN, RED].concat(), &[], &records);
    }
}

#[test]
fn the_first_match_of_a_preserving_rule_may_be_a_root() {
    let outcome = applied(preserving(mark_red()), &[ROOT, PLAIN], &[]);
    assert_eq!(outcome.nodes, [RED_ROOT, PLAIN].concat());
    let outcome = applied(mark_red(), &[ROOT, PLAIN], &[]);
    assert_eq!(outcome.nodes, [ROOT, RED].concat());
}

#[test]
fn any_and_a_flag_are_kept_together() {
    let grey_root = node_slot(mark::GREY, true, &[7]);
    let records = [node_record(0, &grey_root)];
    let outcome = applied(preserving(find()), &[grey_root], &[]);
    expect(&outcome, (0, 1, 1), &grey_root, &[], &records);
}

#[test]
fn a_new_node_takes_the_right_flag_in_the_slot_of_a_root() {
    let replace = preserving(node_rule(
        &[node(mark::NONE, &[])],
        &[node(mark::RED, &[])],
        0,
    ));
    let outcome = applied(replace, &[ROOT], &[]);
    let records = [node_record(0, &ROOT), node_record(0, &FREE)];
    expect(&outcome, (0, 1, 2), &RED, &[], &records);
}

#[test]
fn what_a_guard_gives_back_has_its_flag_again() {
    let guarded = |keep: u8| field(0x59, &[&[keep], &RULE_0, &SKIP, &FAIL]);
    for (rule, taken) in [(m_with(1), RED_ROOT), (takes_flag(), RED)] {
        let run = |keep| run_on(&ROOT, &[], &[&rule, &guarded(keep)], AMPLE_FUEL);
        expect(&run(0), (0, 3, 0), &ROOT, &[], &[]);
        expect(&run(1), (0, 3, 1), &taken, &[], &[node_record(0, &ROOT)]);
    }
}

/// The preserving M whose left node is a root.
fn takes_flag() -> Vec<u8> {
    let mut rule = m_with(1);
    rule[13] = 1;
    rule
}
