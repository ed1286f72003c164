//! Procedures of a text: which stay procedures of the image, with which numbers, and which are written out where they are called.

use super::helpers::*;
use second::build::{if_command, looped, try_command};
use second::tree::Command::{self, Break, Fail, Procedure, RuleSet, Skip};
use second::tree::{limit, Program};

/// Procedures and main command of a text, beside which the rules a, b and c are 0, 1 and 2.
fn kept(text: &str) -> (Vec<Command>, Command) {
    let Program {
        procedures, main, ..
    } = program(&format!("{text}\n{THREE_RULES}"));
    (procedures, main)
}

/// The main command of the same, with procedures written out.
fn out(text: &str) -> Command {
    let program = written_out(&format!("{text}\n{THREE_RULES}"));
    assert_eq!(program.procedures, []);
    program.main
}

#[test]
fn procedures_stay_and_are_called_by_their_numbers() {
    let text = "Main = Both; One!\nBoth = a; b\nOne = c";
    let both = sequence(&[call(0), call(1)]);
    let main = sequence(&[Procedure(0), looped(Procedure(1))]);
    assert_eq!(kept(text), (vec![both.clone(), call(2)], main));
    assert_eq!(out(text), sequence(&[both, looped(call(2))]));
}

#[test]
fn numbers_go_by_where_declarations_begin() {
    let text = "Outer = try Inner else skip\nMain = Outer\nInner = {a, b}; Last\nLast = c!";
    let (procedures, main) = kept(text);
    assert_eq!(main, Procedure(0));
    let outer = try_command(Procedure(1), Skip, Skip);
    let inner = sequence(&[RuleSet(vec![0, 1]), Procedure(2)]);
    assert_eq!(procedures, [outer, inner, looped(call(2))]);
    let inner = sequence(&[RuleSet(vec![0, 1]), looped(call(2))]);
    assert_eq!(out(text), try_command(inner, Skip, Skip));
}

#[test]
fn local_procedures_come_behind_the_one_that_has_them() {
    let text = "
Main = Q; P; a
P = [
  a(x: list) [ (n, x) | ] => [ | ] interface = {}
  Q = a!
] a; Q; b
Q = b
a() [ | ] => [ | ] interface = {}
b() [ | ] => [ | ] interface = {}";
    let whole = program(text);
    assert_eq!(whole.rules.len(), 3);
    assert_eq!(whole.rules[0].left.nodes.len(), 1);
    let p = sequence(&[call(0), Procedure(1), call(2)]);
    assert_eq!(whole.procedures, [p, looped(call(0)), call(2)]);
    let main = sequence(&[Procedure(2), Procedure(0), call(1)]);
    assert_eq!(whole.main, main);
    let p = sequence(&[call(0), looped(call(0)), call(2)]);
    assert_eq!(written_out(text).main, sequence(&[call(2), p, call(1)]));
}

#[test]
fn a_call_is_a_command_like_others() {
    let main = |text: &str| kept(&format!("Main = {text}\nP = a")).1;
    assert_eq!(main("P"), Procedure(0));
    assert_eq!(main("(P)"), Procedure(0));
    assert_eq!(main("(P;)"), sequence(&[Procedure(0)]));
    assert_eq!(main("P!!"), looped(looped(Procedure(0))));
    let guarded = if_command(Procedure(0), Procedure(0), looped(Procedure(0)));
    assert_eq!(main("if P then P else P!"), guarded);
}

#[test]
fn a_procedure_that_nobody_calls_stays_too() {
    let (procedures, main) = kept("Main = skip\nP = Q; fail\nQ = (a;)\nR = {}");
    let q = sequence(&[call(0)]);
    let p = sequence(&[Procedure(1), Fail]);
    assert_eq!((procedures, main), (vec![p, q, Fail], Skip));
    assert_eq!(out("Main = skip\nP = Q; fail\nQ = a"), Skip);
}

#[test]
fn a_procedure_with_a_free_break_is_written_out() {
    let text = "Main = (a; Stop; Go)!\nStop = if b then break\nGo = c";
    let stop = if_command(call(1), Break, Skip);
    let body = |last| looped(sequence(&[call(0), stop.clone(), last]));
    assert_eq!(kept(text), (vec![call(2)], body(Procedure(0))));
    assert_eq!(out(text), body(call(2)));
}

#[test]
fn a_break_in_a_loop_of_its_own_procedure_stays_there() {
    let text = "Main = P!\nP = (a; try b then skip else break)!";
    let body = sequence(&[call(0), try_command(call(1), Skip, Break)]);
    assert_eq!(kept(text), (vec![looped(body)], looped(Procedure(0))));
}

/// Outer has no break of its own, but Stop has, which is written out in it; in the loop of Inside that break is placed.
#[test]
fn a_free_break_is_one_of_the_callers_too() {
    let text = "Main = (Outer; Inside)!\nOuter = a; Stop\nStop = break\nInside = (b; Stop)!";
    let inside = looped(sequence(&[call(1), Break]));
    let outer = sequence(&[call(0), Break]);
    let main = looped(sequence(&[outer, Procedure(0)]));
    assert_eq!(kept(text), (vec![inside], main));
}

#[test]
fn a_break_that_no_caller_can_place_is_refused_where_it_is_called() {
    const START: &str = "`break` outside of a loop's body, expected a loop around it with no guard";
    let guarded = "P = (if (a; break) then skip)!";
    assert_eq!(
        kept(&format!("Main = Q\n{guarded}\nQ = b")),
        (vec![call(1)], Procedure(0))
    );
    for (main, place) in [("P", "2:13"), ("P!", "2:13"), ("skip; (P; a)!", "2:13")] {
        let source = format!("Main = {main}\n{guarded}{THREE_RULES}");
        check(&[(&source, &format!("{place}: {START}"))]);
    }
    let free = format!("Main = if P then skip\nP = a; break{THREE_RULES}");
    check(&[(&free, &format!("2:8: {START}"))]);
}

/// `P0 = skip`, `P1 = skip` and so on.
fn skips(count: usize) -> String {
    (0..count)
        .map(|number| format!("\nP{number} = skip"))
        .collect()
}

#[test]
fn the_first_sixteen_stay_and_those_behind_are_written_out() {
    let sixteen = format!("Main = P15; P0{}", skips(16));
    let main = sequence(&[Procedure(15), Procedure(0)]);
    assert_eq!(kept(&sixteen), (vec![Skip; 16], main.clone()));
    let more = format!(
        "Main = P15; P0; P16; P17{}\nP16 = P3; fail\nP17 = P16",
        skips(16)
    );
    let p16 = sequence(&[Procedure(3), Fail]);
    let main = sequence(&[Procedure(15), Procedure(0), p16.clone(), p16]);
    assert_eq!(kept(&more), (vec![Skip; 16], main));
}

#[test]
fn those_that_cannot_stay_take_no_number() {
    let text = format!("Main = (Stop; P15; P0)!\nStop = break{}", skips(17));
    let main = looped(sequence(&[Break, Procedure(15), Procedure(0)]));
    assert_eq!(kept(&text), (vec![Skip; 16], main));
}

/// A call at this depth, of a procedure of two levels.
fn called_at(depth: usize) -> String {
    let loops = "!".repeat(depth - 1);
    format!("Main = P{loops}\nP = a!\nQ = b")
}

#[test]
fn where_calls_would_lead_too_deep_all_are_written_out() {
    let nested = |inner: Command, levels: usize| (0..levels).fold(inner, |it, _| looped(it));
    let (procedures, main) = kept(&called_at(14));
    assert_eq!(procedures, [looped(call(0)), call(1)]);
    assert_eq!(main, nested(Procedure(0), 13));
    let (procedures, main) = kept(&called_at(15));
    assert_eq!((procedures, main), (vec![], nested(call(0), 15)));
    let source = format!("{}{THREE_RULES}", called_at(16));
    check(&[(&source, "2:5: a command of depth 17, expected at most 16")]);
}

#[test]
fn a_procedure_that_is_too_deep_itself_goes_where_nobody_calls_it() {
    let deep = format!("P = skip{}", "!".repeat(limit::DEPTH));
    assert_eq!(kept(&format!("Main = Q\n{deep}\nQ = a")), (vec![], call(0)));
    let source = format!("Main = P\n{deep}");
    check(&[(&source, "2:5: a command of depth 17, expected at most 16")]);
    let rows = |count: usize| format!("Main = skip\nP = skip{}\nQ = P", "!".repeat(count));
    assert_eq!(kept(&rows(14)).0.len(), 2);
    assert_eq!(kept(&rows(15)).0.len(), 0);
}

/// Each command of a row of 17 but the last lies in a group, which counts for the depth of what it calls.
#[test]
fn grouping_counts_toward_the_depth_of_what_is_called() {
    let text = |first: &str, last: &str| {
        let skips = vec!["skip"; 15].join("; ");
        format!(
            "Main = {first}; {skips}; {last}\nP = skip{}",
            "!".repeat(12)
        )
    };
    assert_eq!(kept(&text("skip", "P")).0.len(), 1);
    assert_eq!(kept(&text("skip", "P!")).0.len(), 1);
    assert_eq!(kept(&text("skip", "P!!")).0.len(), 0);
    assert_eq!(kept(&text("P", "skip")).0.len(), 1);
    assert_eq!(kept(&text("P!", "skip")).0.len(), 0);
}

fn row(skips: usize) -> String {
    vec!["skip"; skips].join("; ")
}

/// 256 skips make 16 sequences in another: 273 commands of 3 bytes. 2,400 make 150, 10 and one: 2,561 commands. A procedure has 3 bytes
/// more.
#[test]
fn the_procedure_that_makes_an_image_too_long_is_named() {
    let (p, q) = (3 * 273 + 3, 3 * 2_561 + 3);
    let text =
        |main: usize, q: usize| format!("Main = {}\nP = {}\nQ = {}", row(main), row(256), row(q));
    assert_eq!(program(&text(1, 1)).procedures.len(), 2);
    let procedures = format!(
        "3:1: the rules and procedures up to this one take {} bytes, expected at most 8192",
        p + q
    );
    check(&[(&text(1, 2_400), &procedures)]);
    let whole = format!(
        "1:1: the image takes {} bytes, expected at most 8192",
        p + (3 + 3) + (q - 3)
    );
    check(&[(&text(2_400, 1), &whole)]);
}

#[test]
fn an_image_that_is_too_long_with_procedures_written_out_says_why_they_are() {
    let sixteen = |number: usize| vec![format!("P{number}"); 16].join("; ");
    let rows: String = (1..4)
        .map(|number| format!("\nP{} = {}", number - 1, sixteen(number)))
        .collect();
    let last = "P3 = skip";
    let legal = format!("Main = P0{rows}\n{last}");
    assert_eq!(program(&legal).procedures.len(), 4);
    let deep = format!("Main = P0{}{rows}\n{last}", "!".repeat(8));
    assert_eq!(program(&deep).procedures.len(), 4);
    let too_deep = format!("Main = P0{}{rows}\n{last}", "!".repeat(9));
    let reason = "expected at most 8192 bytes (procedures are written out, since with calls of them commands would lie over 16 deep)";
    let found = refusal(&too_deep);
    assert!(
        found.starts_with("5:6: the image gets too long here"),
        "{found}"
    );
    assert!(found.ends_with(reason), "{found}");
}

#[test]
fn what_is_wrong_in_a_procedure_is_found_there_whether_it_is_called_or_not() {
    let nine = "{a, b, c, a, b, c, a, b, c}";
    for main in ["skip", "P"] {
        let source = format!("Main = {main}\nP = skip; {nine}{THREE_RULES}");
        check(&[(&source, "2:11: a set of 9 rules")]);
    }
}
