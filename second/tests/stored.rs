//! The stored inputs of the test programs are what the second interpreter makes, and their expected outputs what it answers.

use std::collections::HashSet;
use std::path::Path;

use second::carrying::Way;
use second::layout::Core;
use second::refusals::{numbers_of, UndoCall};
use second::stored::{self, TextCall};

fn folder(name: &str) -> std::path::PathBuf {
    Path::new(env!("CARGO_MANIFEST_DIR")).join("../crates").join(name)
}

#[test]
fn stored_inputs_and_outputs_are_what_this_interpreter_gives() {
    for name in stored::NAMES {
        let stored = stored::named(name).expect("a listed name is known");
        let file = |part: &str| std::fs::read(folder(name).join(part)).expect("a test program has stored inputs");
        assert!(file("stdin") == stored.stdin, "{name}: stdin differs; write it anew by `second stored {name} FOLDER`");
        assert!(file("stdout") == stored.stdout, "{name}: stdout differs");
    }
}

fn text(stored: stored::Stored) -> String {
    String::from_utf8(stored.stdout).expect("lines of text")
}

/// At either core, and results of runs undone among them.
#[test]
fn undo_cases_have_every_answer_of_undo() {
    let text = text(stored::undo_cases());
    let calls = stored::undo_calls();
    assert_eq!(text.lines().count(), calls.len());
    for core in Core::BOTH {
        let lines = || text.lines().zip(&calls).filter(|(_, (at, _))| *at == core).map(|(line, _)| line);
        for answer in [0, 9, 10, 11, 12, 20] {
            assert!(lines().any(|line| line.starts_with(&format!("{answer} "))), "no case of {core:?} answers {answer}");
        }
        let undone = lines().filter(|line| line.starts_with("0 "));
        assert!(undone.count() >= 100, "{core:?}");
    }
}

/// The last part of a case is one byte: 0 for the wide core, 1 for the small one.
#[test]
fn an_undo_case_says_its_core() {
    let stored = stored::undo_cases();
    let mut rest = &stored.stdin[..];
    for (core, _) in stored::undo_calls() {
        let length = usize::from(u16::from_be_bytes([rest[1], rest[2]]));
        let (case, behind) = rest[3..].split_at(length);
        let byte = if core == Core::Wide { 0 } else { 1 };
        assert_eq!(case[case.len() - 4..], [6, 0, 1, byte]);
        rest = behind;
    }
    assert!(rest.is_empty());
}

/// A record of the small core has its slot number in the byte that is zero at the wide one.
#[test]
fn undo_cases_of_the_small_core_have_records_of_other_slots_than_0() {
    let calls = stored::undo_calls();
    let accepted = calls.iter().filter(|(core, call)| *core == Core::Small && call.outcome_at(core.layout()).answer == 0);
    let counted = |call: &UndoCall| call.journal.chunks(12).take(call.count as usize).any(|record| record[1] > 0);
    let numbered = accepted.filter(|(_, call)| counted(call));
    assert!(numbered.count() >= 50);
}

#[test]
fn refusal_cases_have_every_refusal_of_run() {
    let text = text(stored::refusal_cases());
    for answer in [0, 9, 10, 11, 12, 13, 14, 15, 16, 17, 18, 19] {
        assert!(text.lines().any(|line| line == answer.to_string()), "no case answers {answer}");
    }
}

#[test]
fn match_cases_exercise_every_rule_of_matching() {
    let seen = stored::seen_by_matches();
    assert!(seen.matched > 1_000 && seen.unmatched > 300 && seen.refused > 30);
    let exercised = &seen.exercised;
    for counts in [&exercised.tests_true, &exercised.tests_false] {
        for count in [counts.edge, counts.in_degree, counts.out_degree, counts.equal, counts.less] {
            assert!(count > 20, "a kind of test is seldom looked at");
        }
    }
    for count in [exercised.negated_tests, exercised.dangling_refusals, exercised.any_marks_matched, exercised.roots_matched] {
        assert!(count > 100);
    }
    for count in [exercised.modes_matched[0], exercised.modes_matched[1], exercised.unrooted_on_roots] {
        assert!(count > 50);
    }
}

#[test]
fn match_cases_stay_short() {
    assert!(stored::match_cases().stdin.len() < 2_200_000);
}

/// Each way has every answer, and results on drawn hosts among them.
#[test]
fn carry_cases_have_every_answer_of_all_calls() {
    let stored = stored::carry_cases();
    assert!(stored.stdin.len() <= 262_144 + 500_000, "{} bytes", stored.stdin.len());
    let text = text(stored);
    let calls = stored::carry_calls();
    assert_eq!(text.lines().count(), calls.len());
    for way in Way::ALL {
        for answer in [&[0], numbers_of(way)].concat() {
            let begins = format!("{answer} ");
            let lines = text.lines().zip(&calls).filter(|(line, call)| call.way == way && line.starts_with(&begins));
            assert!(lines.count() >= 10, "{way:?} seldom answers {answer}");
        }
    }
}

/// Fewer slots, as many and more in the tables that are carried to.
#[test]
fn carry_cases_of_packing_have_all_numbers_of_slots() {
    for way in Way::PACKING {
        let calls: Vec<_> = stored::carry_calls().into_iter().filter(|it| it.way == way && it.call.outcome(way).answer == 0).collect();
        let slots = |bytes: usize, length: usize| bytes / length;
        let orders = calls.iter().map(|it| {
            let (from, to) = (way.from().node_length(), way.to().node_length());
            slots(it.call.nodes.len(), from).cmp(&slots(it.call.to_nodes.len(), to))
        });
        let orders: Vec<std::cmp::Ordering> = orders.collect();
        for order in [std::cmp::Ordering::Less, std::cmp::Ordering::Equal, std::cmp::Ordering::Greater] {
            assert!(orders.iter().filter(|found| **found == order).count() >= 10, "{way:?} {order:?}");
        }
    }
}

#[test]
fn a_carry_case_shows_what_was_written_and_what_was_not() {
    let text = text(stored::carry_cases());
    let refused = text.lines().find(|line| line.starts_with("15 ")).expect("a refused case");
    assert!(refused[3..].bytes().all(|byte| b"a5 ".contains(&byte)), "{refused}");
    let empty = text.lines().find(|line| line.starts_with("0  "));
    assert_eq!(empty, Some("0  "), "tables of no slots");
}

/// The answers that a call can have, and in how many stored cases each is at least.
#[test]
fn text_cases_have_every_answer_of_both_calls() {
    let stored = stored::text_cases();
    assert!(stored.stdin.len() <= 640_000, "{} bytes", stored.stdin.len());
    let text = text(stored);
    let calls = stored::text_calls();
    assert_eq!(text.lines().count(), calls.len());
    assert!((1_500..=2_500).contains(&calls.len()), "{}", calls.len());
    let count = |of_import: bool, answer: u32| {
        let lines = text.lines().zip(&calls).filter(|(_, call)| matches!(call, TextCall::Import(_)) == of_import);
        lines.filter(|(line, _)| line.starts_with(&format!("{answer} "))).count()
    };
    for (answer, least) in [(0, 500), (10, 10), (11, 10), (22, 500), (23, 30), (24, 60)] {
        assert!(count(true, answer) >= least, "import answers {answer} {} times", count(true, answer));
    }
    for (answer, least) in [(0, 80), (10, 8), (11, 5), (15, 80), (25, 20)] {
        assert!(count(false, answer) >= least, "export answers {answer} {} times", count(false, answer));
    }
}

/// Two spaces in a line, whatever is empty; tables as they were where an import is refused, bytes behind the text where there is room.
#[test]
fn a_text_case_shows_what_was_written_and_what_was_not() {
    let text = text(stored::text_cases());
    assert!(text.lines().all(|line| line.matches(' ').count() == 2));
    assert!(text.lines().any(|line| line == "0  "), "an empty graph to tables of no slots");
    let refused = text.lines().find(|line| line.starts_with("22 ")).expect("a refused case");
    assert!(refused[3..].bytes().all(|byte| b"a5 ".contains(&byte)), "{refused}");
    assert!(text.lines().any(|line| line.ends_with("5d0aa5")), "a byte behind a text");
}

#[test]
fn text_breaks_lie_on_many_lines_and_columns() {
    let texts = stored::broken_texts();
    assert!((300..=600).contains(&texts.len()), "{}", texts.len());
    let text = text(stored::text_breaks());
    let places: HashSet<&str> = text.lines().filter_map(|line| line.strip_prefix("refused 22 line ")).collect();
    assert!(places.len() > 150, "{}", places.len());
    let count = |line: &str| text.lines().filter(|found| *found == line).count();
    assert!(count("[") >= 10 && count("refused 23") >= 10 && count("refused 24") >= 10);
}

#[test]
fn the_small_runners_case_has_small_tables() {
    let stored = stored::small_case_p();
    let grey = |atom: u8| [1, 4, 0, 1, 0, 0, 0, atom];
    let nodes = [&[1, 0, 16][..], &grey(5), &grey(7)].concat();
    assert!(stored.stdin.starts_with(&[&nodes[..], &[2, 0, 10, 1, 0, 0, 0, 0, 1, 0, 0, 0, 0]].concat()));
    assert_eq!(text(stored), text(stored::case_p()));
}

/// The lengths of the fields, and the bytes of one slot by hand.
#[test]
fn widen_and_narrow_write_each_others_input() {
    let (widen, narrow) = (stored::widen(), stored::narrow());
    assert_eq!((&widen.stdout, &narrow.stdout), (&narrow.stdin, &widen.stdin));
    let field = |bytes: &[u8], at: usize| (bytes[at], u16::from_be_bytes([bytes[at + 1], bytes[at + 2]]));
    assert_eq!((field(&widen.stdin, 0), field(&widen.stdin, 3 + 7 * 20)), ((1, 7 * 20), (2, 7 * 24)));
    assert_eq!((field(&widen.stdout, 0), field(&widen.stdout, 3 + 7 * 36)), ((1, 7 * 36), (2, 7 * 40)));
    let red = [1, 1, 1, 1, 0, 0, 0, 1];
    assert_eq!(widen.stdin[3 + 2 * 20..][..20], [&red[..], &[0; 12]].concat());
    assert_eq!(widen.stdout[3 + 2 * 36..][..36], [&red[..], &[0; 28]].concat());
}
