//! Each refusal of a rule but for its condition, with its place and the start of its message.

use super::helpers::*;

const VARIABLES: &[(&str, &str)] = &[
    (
        "r [ | ]",
        "2:3: found `[`, expected `(` and the variables of the rule `r`",
    ),
    (
        "r(x) [ | ]",
        "2:4: found `)`, expected `:` and a type behind the variables",
    ),
    (
        "r(x: ) [ | ]",
        "2:6: found `)`, expected a type, `int` or `list`",
    ),
    (
        "r(x: list,) [ | ]",
        "2:10: found `,`, expected `)` behind the variables, or `;`",
    ),
    ("r(x: list;) [ | ]", "2:11: found `)`, expected a variable"),
    (
        "r(x, y: atom) [ | ]",
        "2:9: the type `atom` can't be held, expected `int` or `list`: an image has no strings",
    ),
    ("r(x: string) [ | ]", "2:6: the type `string` can't be held"),
    ("r(x: char) [ | ]", "2:6: the type `char` can't be held"),
    (
        "r(empty: list) [ | ]",
        "2:3: `empty` is a word of the notation, expected another name for a variable",
    ),
    (
        "r(1a: list) [ | ]",
        "2:3: `1a` as a variable, expected a name that starts with a letter",
    ),
    ("r(5: list) [ | ]", "2:3: found `5`, expected a variable"),
    (
        "r(x: list; x: int) [ | ] => [ | ] interface = {}",
        "2:12: the variable `x` twice, expected each once",
    ),
    (
        "r(a, b, c, d, e, f, g: int) [ | ] => [ | ] interface = {}",
        "2:21: a variable too many, expected at most 6 in a rule",
    ),
];

#[test]
fn variables() {
    check_rules(VARIABLES);
}

#[test]
fn graphs() {
    check_rules(&[
        ("r() (1, 5)", "2:5: found `(`, expected `[` at the start of the left graph"),
        ("r() [ (1, 5), (2, 5) | ]", "2:13: found `,`, expected `|` behind the nodes, or `(` and a node"),
        ("r() [ (1, 5) ]", "2:14: found `]`, expected `|` behind the nodes, or `(` and a node"),
        ("r() [ | (1, 2, 3, 4) | ]", "2:22: found `|`, expected `]` behind the edges, or `(` and an edge"),
        ("r() [ | ] [ | ]", "2:11: found `[`, expected `=>` between the left and the right graph"),
        ("r() [ | ] => interface", "2:14: found `interface`, expected `[` at the start of the right graph"),
        ("r() [ ((R), 5) | ]", "2:8: found `(`, expected a node's identifier"),
        ("r() [ (1(B), 5) | ]", "2:10: found `B`, expected `(R)` behind a root's identifier"),
        ("r() [ (1(R, 5) | ]", "2:11: found `,`, expected `)` behind `(R`"),
        ("r() [ (1) | ]", "2:9: found `)`, expected `,` and a label behind the node's identifier"),
        ("r() [ (1, ) | ]", "2:11: found `)`, expected a label: integers and variables with `:` between them, or `empty`"),
        ("r() [ (1, 5 6) | ]", "2:13: found `6`, expected `)` behind the node's label"),
        ("r() [ | (e(R), 1, 1, 5) ]", "2:12: found `R`, expected `(B)` behind a bidirectional edge's identifier"),
        ("r() [ | (e) ]", "2:11: found `)`, expected `,` and a source behind the edge's identifier"),
        ("r() [ | (e, 1) ]", "2:14: found `)`, expected `,` and a target behind the edge's source"),
        ("r() [ | (e, 1, 2) ]", "2:17: found `)`, expected `,` and a label behind the edge's target"),
        ("r() [ | (e, 1, 2, empty, ) ]", "2:24: found `,`, expected `)` behind the edge's label"),
        ("r() [ () | ] => [ | ] interface = {}", "2:8: found `)`, expected a node's identifier"),
        ("r() [ (1, 5) (1, 6) | ] => [ | ] interface = {}", "2:15: the node `1` twice, expected each identifier once"),
        ("r() [ | ] => [ (1, 5) (1, 6) | ] interface = {}", "2:24: the node `1` twice, expected each identifier once"),
        ("r() [ (1, 5) | (e, 1, 1, 5)\n(e, 1, 1, 6) ] => [ | ] interface = {}", "3:2: the edge `e` twice, expected each identifier once"),
        ("r() [ (1, 5) | (e, 2, 1, 5) ] => [ | ] interface = {}", "2:20: no node `2` in the left graph, expected one of its identifiers"),
        ("r() [ (1, 5) | ] => [ | (e, 1, 1, 5) ] interface = {}", "2:29: no node `1` in the right graph, expected one of its identifiers"),
    ]);
}

#[test]
fn a_seventh_node_or_edge() {
    let nodes: String = (1..=7)
        .map(|number| format!("\n({number}, empty)"))
        .collect();
    let edges: String = (1..=7)
        .map(|number| format!("\n({number}, 1, 1, empty)"))
        .collect();
    check_rules(&[
        (
            &format!("r() [ {nodes} | ] => [ | ] interface = {{}}"),
            "9:2: a node too many, expected at most 6 in a rule's graph",
        ),
        (
            &format!("r() [ | ] => [ {nodes} | ] interface = {{}}"),
            "9:2: a node too many",
        ),
        (
            &format!("r() [ (1, empty) | {edges} ] => [ | ] interface = {{}}"),
            "9:2: an edge too many, expected at most 6 in a rule's graph",
        ),
        (
            &format!("r() [ | ] => [ (1, empty) | {edges} ] interface = {{}}"),
            "9:2: an edge too many",
        ),
    ]);
}

#[test]
fn interfaces() {
    check_rules(&[
        ("r() [ | ] => [ | ]", "2:19: found the end of the text, expected `interface` and `= {..}` behind the right graph"),
        ("r() [ | ] => [ | ] interface {}", "2:30: found `{`, expected `=` behind `interface`"),
        ("r() [ | ] => [ | ] interface = 1", "2:32: found `1`, expected `{` and the interface's nodes"),
        ("r() [ | ] => [ | ] interface = {1 2}", "2:35: found `2`, expected `}` behind the interface's nodes, or `,`"),
        ("r() [ | ] => [ | ] interface = {1,}", "2:35: found `}`, expected a node of the interface"),
        ("r() [ | ] => [ (1, 5) | ] interface = {1}", "2:40: the interface's node `1` isn't in the left graph, expected it on both sides"),
        ("r() [ (1, 5) | ] => [ | ] interface = {1}", "2:40: the interface's node `1` isn't in the right graph, expected it on both sides"),
        ("r() [ (1, 5) | ] => [ (1, 5) | ] interface = {1, 1}", "2:50: the interface node `1` twice, expected each identifier once"),
    ]);
}

#[test]
fn labels_on_the_left() {
    check_rules(&[
        ("r() [ (1, x) | ] => [ | ] interface = {}", "2:11: the variable `x` isn't declared, expected it in the rule's parentheses"),
        ("r(i: int) [ (1, i+1) | ] => [ | ] interface = {}", "2:17: a sum or difference on the left can't be held, expected an integer or a variable"),
        ("r(x: list) [ (1, x:1:x) | ] => [ | ] interface = {}", "2:22: a second list variable in one left label, expected at most one"),
        ("r(x, y: list) [ (1, x) | (e, 1, 1, x:y) ] => [ | ] interface = {}", "2:38: a second list variable in one left label"),
        ("r() [ (1, 1:2:3:4:5:6:7:8:9) | ] => [ | ] interface = {}", "2:27: a label element too many, expected at most 8"),
        ("r() [ (1, indeg(1)) | ] => [ | ] interface = {}", "2:11: a degree in a label can't be held, expected an integer or a variable"),
        ("r() [ (1, 2147483648) | ] => [ | ] interface = {}", "2:11: 2147483648 can't be held, expected a number from -2147483648 to 2147483647"),
        ("r() [ (1, -2147483649) | ] => [ | ] interface = {}", "2:11: -2147483649 can't be held"),
        ("r() [ (1, \"word\") | ] => [ | ] interface = {}", "2:11: a string can't be held, expected an integer or a variable"),
        ("r() [ (1, length(x)) | ] => [ | ] interface = {}", "2:11: `length` can't be held, expected an integer or a variable"),
        ("r() [ (1, 5 # black) | ] => [ | ] interface = {}", "2:15: found `black`, expected a mark of a node: red, green, blue, grey, any"),
        ("r() [ (1, 5 # dashed) | ] => [ | ] interface = {}", "2:15: found `dashed`, expected a mark of a node"),
        ("r() [ | (1, 1, 1, 5 # grey) ] => [ | ] interface = {}", "2:23: found `grey`, expected a mark of an edge: red, green, blue, dashed, any"),
    ]);
}

const RIGHT_LABELS: &[(&str, &str)] = &[
    (
        "free",
        "3:1: the variable `free` has no value here, expected it in a left label too",
    ),
    (
        "y",
        "3:1: the variable `y` isn't declared, expected it in the rule's parentheses",
    ),
    (
        "x:1+x",
        "3:5: `x` is a list, expected an integer or an int variable",
    ),
    ("free-1", "3:1: the variable `free` has no value here"),
    (
        "1:2:3:4:5:6:7:8:i+j",
        "3:17: a label element too many, expected at most 8",
    ),
    (
        "i+j+1",
        "3:4: a third operand can't be held, expected one sum or difference of two operands",
    ),
    ("(i-j)+1", "3:2: a third operand can't be held"),
    ("1-(i-j)", "3:4: a third operand can't be held"),
    ("i*j", "3:2: `*` can't be held, expected `+` or `-`"),
    ("1+i/j", "3:4: `/` can't be held, expected `+` or `-`"),
    ("x.x", "3:2: `.` joins strings, which can't be held"),
    (
        "-i",
        "3:2: found `i`, expected digits behind `-` (minus a variable is written `0-i`)",
    ),
    ("i+", "3:3: found `)`, expected a label"),
    ("(i", "3:5: found `|`, expected `)` behind the node's label"),
    (
        "(i:j)",
        "3:3: found `:`, expected `)` behind the expression in parentheses",
    ),
    (
        "i+empty",
        "3:3: `empty` inside an expression, expected an integer or a variable",
    ),
    ("i+\"a\"", "3:3: a string can't be held"),
    ("outdeg(1)", "3:1: a degree in a label can't be held"),
    ("1+indeg(1)", "3:3: a degree in a label can't be held"),
    (
        "indeg 1",
        "3:7: found `1`, expected `(` and a node behind `indeg`",
    ),
];

#[test]
fn labels_on_the_right() {
    let with_right = |label: &str| {
        format!(
            "r(i, j: int; x, free: list) [ (1, i:j:x) | ] => [ (2,\n{label}) | ] interface = {{}}"
        )
    };
    for (label, expected) in RIGHT_LABELS {
        check_rules(&[(&with_right(label), expected)]);
    }
}

#[test]
fn mark_any_on_the_right() {
    check_rules(&[
        ("r() [ (1, 5 # any) | ] => [ (1, 5 # any) | ] interface = {}", "2:37: mark any on the right, expected it only on an interface node that is any on the left"),
        ("r() [ (1, 5 # red) | ] => [ (1, 5 # any) | ] interface = {1}", "2:37: mark any on the right"),
        ("r() [ (1, 5) | (1, 1, 1, 5 # any) ] => [ (1, 5) | (1, 1, 1, 5 # any) ] interface = {1}", "2:65: mark any on a right edge can't be held, expected another mark or none"),
    ]);
}

#[test]
fn bidirectional_edges() {
    let with_edges = |left: &str, right: &str| {
        format!("r() [ (1, 5) (2, 5) (3, 5) |\n{left} ]\n=> [ (1, 5) (2, 5) (3, 5) |\n{right} ] interface = {{1, 2}}")
    };
    const ALONE: &str = "a bidirectional right edge without its like, expected a bidirectional left edge between the same interface nodes";
    let cases = [
        (
            "(e(B), 1, 1, 5)",
            "",
            "3:2: a bidirectional loop, expected two different ends, or no `(B)`".to_string(),
        ),
        (
            "(e(B), 1, 2, 5) (f(B), 2, 1, 6)",
            "",
            "3:18: a second bidirectional edge between the same nodes, expected at most one"
                .to_string(),
        ),
        ("(e, 1, 2, 5)", "(e(B), 1, 2, 5)", format!("5:2: {ALONE}")),
        (
            "(e(B), 1, 2, 5)",
            "(e(B), 1, 3, 5)",
            format!("5:2: {ALONE}"),
        ),
        (
            "(e(B), 1, 3, 5)",
            "(e(B), 1, 3, 5)",
            format!("5:2: {ALONE}"),
        ),
        (
            "(e(B), 1, 2, 5)",
            "(e(B), 1, 2, 5)\n(f(B), 1, 2, 5)",
            "6:2: a second bidirectional edge between the same nodes".to_string(),
        ),
    ];
    for (left, right, expected) in cases {
        check_rules(&[(&with_edges(left, right), &expected)]);
    }
}
