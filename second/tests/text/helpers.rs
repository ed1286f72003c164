//! Short ways to assemble a text and to build what it should give.

pub use second::build::{call, edge, if_command, looped, node, try_command};
use second::layout::{Core, Layout};
use second::text::{assemble_as, assemble_program, Procedures};
use second::tree::*;

/// The bytes of a node slot and of an edge slot.
pub const NODE: usize = Layout::BASE.node_length();
pub const EDGE: usize = Layout::BASE.edge_length();

/// Declarations of rules a, b and c, which do nothing, so that commands have something to call.
pub const THREE_RULES: &str = "
a() [ | ] => [ | ] interface = {}
b() [ | ] => [ | ] interface = {}
c() [ | ] => [ | ] interface = {}
";

/// Case P of document 01.
pub const CASE_P: &str = "
Main = turn!

turn(x, y: int)
[ (n1, x # grey) (n2, y # grey) | (e1, n1, n2, empty) ]
=>
[ (n1, x # red) (n2, x+y # blue) | (e1, n2, n1, empty) ]
interface = {n1, n2}
";

pub fn program(source: &str) -> Program {
    assemble_program("test", source).unwrap_or_else(|complaint| panic!("{complaint}\n{source}"))
}

/// The program with its procedures written out.
pub fn written_out(source: &str) -> Program {
    let assembly = assemble_as("test", source, Procedures::WrittenOut, Core::Wide);
    assembly
        .unwrap_or_else(|complaint| panic!("{complaint}\n{source}"))
        .program
}

/// The one rule of a program whose text is this rule.
pub fn rule(text: &str) -> Rule {
    let mut rules = rules(text);
    assert_eq!(rules.len(), 1);
    rules.remove(0)
}

pub fn rules(text: &str) -> Vec<Rule> {
    program(&format!("Main = skip\n{text}")).rules
}

/// The main command of a text, beside which the rules a, b and c are 0, 1 and 2.
pub fn main_command(text: &str) -> Command {
    program(&format!("{text}\n{THREE_RULES}")).main
}

pub fn sequence(parts: &[Command]) -> Command {
    Command::Sequence(parts.to_vec())
}

/// The place and message of the refusal of a program, as `LINE:COLUMN: message`.
pub fn refusal(source: &str) -> String {
    match assemble_program("test", source) {
        Ok(_) => panic!("not refused:\n{source}"),
        Err(complaint) => complaint.to_string()["test:".len()..].to_string(),
    }
}

/// Checks that each text is refused with that start of `LINE:COLUMN: message`.
pub fn check(cases: &[(&str, &str)]) {
    for (source, expected) in cases {
        let found = refusal(source);
        assert!(
            found.starts_with(expected),
            "{source}\nexpected {expected}\nfound    {found}"
        );
    }
}

/// The same of rules, which start on the second line.
pub fn check_rules(cases: &[(&str, &str)]) {
    for (rule, expected) in cases {
        check(&[(&format!("Main = skip\n{rule}"), expected)]);
    }
}

/// The same of conditions over nodes 1 and 2, int variables i and j and the list x. The condition starts
/// on the third line.
pub fn check_conditions(cases: &[(&str, &str)]) {
    for (condition, expected) in cases {
        let head =
            "r(i, j, free: int; x: list) [ (1, i) (2, j:x) | ] => [ | ] interface = {} where";
        check(&[(&format!("Main = skip\n{head}\n{condition}"), expected)]);
    }
}
