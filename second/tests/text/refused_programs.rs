//! Each refusal of a program and its commands, with its place and the start of its message.

use super::helpers::*;
use second::layout::Core;
use second::text::{assemble_as, Procedures};
use second::tree::limit;

#[test]
fn characters_and_strings() {
    check(&[
        (
            "Main = a$",
            "1:9: the character '$' has no use in the notation",
        ),
        (
            "Main =\n\té",
            "2:2: the character 'é' has no use in the notation",
        ),
        (
            "Main = \"a",
            "1:8: a string that doesn't end on its line, expected a second `\"`",
        ),
        ("Main = \"a\"", "1:8: found a string, expected a command"),
    ]);
}

#[test]
fn programs() {
    check(&[
        ("", "1:1: found the end of the text, expected `Main = ..`: a program has one main command sequence"),
        ("a() [ | ] => [ | ] interface = {}", "1:34: found the end of the text, expected `Main = ..`"),
        ("Main = skip\nMain = skip", "2:1: a second `Main`, expected one in a program"),
        ("Main skip", "1:6: found `skip`, expected `=` behind `Main`"),
        ("Main = [ P = skip ] P", "1:8: local declarations in `Main`, expected them in procedures alone"),
        ("Main = skip )", "1:13: found `)`, expected a declaration (`Main = ..`, `Procedure = ..` or `rule(..) ..`)"),
        ("Main = skip; 5", "1:14: found `5`, expected a command"),
        ("Main = a b; c", "1:11: found `;`, expected `(` and the variables of the rule `b`, or `;` between two commands"),
        ("Main = skip P; Q", "1:14: found `;`, expected `=` between the procedure `P` and its commands, or `;`"),
        ("Main = skip\nfail() [ | ] => [ | ] interface = {}", "2:1: `fail` is a word of the notation, expected another name for a rule"),
        ("Main = skip P = [ Main = skip ] skip", "1:19: `Main` among local declarations, expected it outside"),
        ("Main = skip P = [ Q = skip", "1:27: found the end of the text, expected `]` behind the local declarations"),
        ("Main = skip P = skip\nP = skip", "2:1: `P` is declared twice, expected each name once"),
    ]);
    let twice = format!("Main = skip{THREE_RULES}b() [ | ] => [ | ] interface = {{}}");
    check(&[(
        &twice,
        "5:1: `b` is declared twice, expected each name once",
    )]);
}

const COMMANDS: &[(&str, &str)] = &[
    (
        "Main =",
        "1:7: found the end of the text, expected a command",
    ),
    (
        "Main = skip;",
        "1:13: found the end of the text, expected a command",
    ),
    ("Main = else", "1:8: found `else`, expected a command"),
    (
        "Main = skip or fail",
        "1:13: `or` can't be held: an image has no choice between commands, expected `;`",
    ),
    ("Main = (skip or fail)", "1:14: `or` can't be held"),
    (
        "Main = if skip",
        "1:15: found the end of the text, expected `then` behind the guard of `if`",
    ),
    (
        "Main = if if skip then skip",
        "1:11: `if` as a guard, expected it in parentheses",
    ),
    (
        "Main = try try skip",
        "1:12: `try` as a guard, expected it in parentheses",
    ),
    (
        "Main = (skip",
        "1:13: found the end of the text, expected `)` behind the commands in parentheses",
    ),
    ("Main = ()", "1:9: found `)`, expected a command"),
    (
        "Main = {a",
        "1:10: found the end of the text, expected `}` behind the rule set, or `,`",
    ),
    ("Main = {a,}", "1:11: found `}`, expected a rule's name"),
    ("Main = {5}", "1:9: found `5`, expected a rule's name"),
    (
        "Main = a",
        "1:8: no rule `a`, expected the name of a declared one",
    ),
    (
        "Main = P",
        "1:8: no procedure `P`, expected the name of a declared one",
    ),
    (
        "Main = skip; {a, b}",
        "1:15: no rule `a`, expected the name of a declared one",
    ),
    (
        "Main = {P} P = skip",
        "1:9: the procedure `P` in a rule set, expected names of rules",
    ),
    (
        "Main = skip P = q",
        "1:17: no rule `q`, expected the name of a declared one",
    ),
];

#[test]
fn commands() {
    check(COMMANDS);
}

#[test]
fn breaks_outside_of_loops() {
    const START: &str = "`break` outside of a loop's body, expected a loop around it with no guard";
    check(&[
        ("Main = break", &format!("1:8: {START}")),
        (
            "Main = (skip; (if break then skip))!",
            &format!("1:19: {START}"),
        ),
        (
            "Main = (try (skip; break) then skip)!",
            &format!("1:20: {START}"),
        ),
        (
            "Main = skip!; if skip then break",
            &format!("1:28: {START}"),
        ),
        ("Main = P\nP = skip; break", &format!("2:11: {START}")),
    ]);
}

#[test]
fn rings_of_calls() {
    check(&[
        (
            "Main = P P = skip; P",
            "1:20: a ring of calls (P calls P), expected procedures that don't call themselves",
        ),
        (
            "Main = P\nP = Q!\nQ = try R\nR = P",
            "4:5: a ring of calls (P calls Q calls R calls P)",
        ),
        (
            "Main = skip\nP = Q\nQ = P",
            "3:5: a ring of calls (P calls Q calls P)",
        ),
        (
            "Main = skip\nP = [ Q = P ] Q",
            "2:11: a ring of calls (P calls Q calls P)",
        ),
    ]);
    let chain: String = (0..40)
        .map(|number| format!("\nP{number} = P{}", number + 1))
        .collect();
    let source = format!("Main = P0{chain}\nP40 = skip");
    check(&[(
        &source,
        "33:7: procedures that call each other more than 32 in a row, expected at most that",
    )]);
}

#[test]
fn nesting() {
    let deep = format!("Main = {}skip{}", "(".repeat(1000), ")".repeat(1000));
    assert!(refusal(&deep).contains("nested more than 128 deep"));
    let loops = format!("Main = skip{}", "!".repeat(1000));
    assert!(refusal(&loops).contains("nested more than 128 deep"));
    let not = "not ".repeat(1000);
    let condition =
        format!("Main = skip r() [ | ] => [ | ] interface = {{}} where {not} edge(1, 2)");
    assert!(refusal(&condition).contains("nested more than 128 deep"));
}

#[test]
fn a_thirty_third_rule() {
    let rules: String = (1..=33)
        .map(|number| format!("\nr{number}() [ | ] => [ | ] interface = {{}}"))
        .collect();
    let source = format!("Main = skip{rules}");
    check(&[(&source, "34:1: a rule too many (a bidirectional edge makes two of one), expected at most 32 in an image")]);
}

/// A rule that a bidirectional edge makes two of.
fn two_in_one(name: &str) -> String {
    format!("\n{name}() [ (1, empty) (2, empty) | (e(B), 1, 2, empty) ] => [ | ] interface = {{}}")
}

#[test]
fn a_ninth_rule_in_a_set() {
    let names: Vec<String> = (1..=5).map(|number| format!("r{number}")).collect();
    let rules: String = names.iter().map(|name| two_in_one(name)).collect();
    let four = format!("Main = {{{}}}{rules}", names[..4].join(", "));
    assert_eq!(program(&four).rules.len(), 10);
    let five = format!("Main = skip;\n{{{}}}{rules}", names.join(", "));
    check(&[(
        &five,
        "2:1: a set of 10 rules (a bidirectional edge makes two of one), expected at most 8",
    )]);
}

#[test]
fn images_that_are_too_long() {
    let label = "1+1:1+1:1+1:1+1";
    let nodes: String = (1..=6)
        .map(|number| format!("({number}, {label}) "))
        .collect();
    let edges: String = (1..=6)
        .map(|number| format!("({number}, 1, 1, {label}) "))
        .collect();
    let rule =
        |number: usize| format!("\nr{number}() [ | ] => [ {nodes} | {edges} ] interface = {{}}");
    let rules = |count: usize| (1..=count).map(rule).collect::<String>();
    let one = second::encode::program(&program(&format!("Main = skip{}", rules(1)))).len() - 3;
    let fitting = limit::IMAGE_BYTES / one;
    let message = format!(
        "{}:1: the rules up to this one take {} bytes, expected at most 8192",
        fitting + 2,
        (fitting + 1) * one
    );
    check(&[(&format!("Main = skip{}", rules(fitting + 1)), &message)]);

    let left = limit::IMAGE_BYTES - fitting * one;
    let calls = vec!["{r1, r1, r1, r1, r1, r1, r1, r1}"; left / 11 + 1].join("; ");
    let found = refusal(&format!("Main = {calls}{}", rules(fitting)));
    assert!(found.starts_with("1:1: the image takes 8"), "{found}");
}

#[test]
fn procedures_that_grow_without_end() {
    let doubling: String = (0..31)
        .map(|number| format!("\nP{number} = P{0}; P{0}", number + 1))
        .collect();
    let source = format!("Main = P0{doubling}\nP31 = skip");
    assert!(
        refusal(&source).contains("expected at most"),
        "{}",
        refusal(&source)
    );
    let wide: String = (0..3)
        .map(|number| {
            format!(
                "\nP{number} = {}",
                vec![format!("P{}", number + 1); 16].join("; ")
            )
        })
        .collect();
    let source = format!("Main = P0{wide}\nP3 = skip");
    assert_eq!(program(&source).procedures.len(), 4);
    let complaint = assemble_as("test", &source, Procedures::WrittenOut, Core::Wide).expect_err("not refused");
    let message = "the image gets too long here, expected at most 8192 bytes";
    assert_eq!(complaint.message, message);
}
