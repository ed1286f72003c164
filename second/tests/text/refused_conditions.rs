//! Each refusal of a condition, with its place and the start of its message.

use super::helpers::*;

#[test]
fn conditions() {
    check_conditions(&[
        ("", "3:1: found the end of the text, expected a label"),
        (
            "edge(1, 2) or edge(2, 1)",
            "3:12: `or` can't be held, expected a conjunction of tests with `and`",
        ),
        (
            "not (edge(1, 2) and edge(2, 1))",
            "3:17: the negation of `and` is an `or`, which can't be held",
        ),
    ]);
    check_conditions(&[
        ("edge(1)", "3:7: found `)`, expected `,` and a second node"),
        ("edge(1, 2, 5)", "3:10: a label in `edge` can't be held, expected `)`"),
        ("edge(1, 2", "3:10: found the end of the text, expected `)` behind the nodes of `edge`"),
        ("edge(1, 3)", "3:9: no node `3` in the left graph, expected one of its identifiers"),
        ("int(x)", "3:1: the type test `int(..)` can't be held, expected a test of edges, degrees or integers"),
        ("not string(x)", "3:5: the type test `string(..)` can't be held"),
        ("i", "3:2: found the end of the text, expected a comparison: =, !=, <, <=, > or >="),

    ]);
    check_conditions(&[
        ("x = 1", "3:1: `x` is a list, expected an integer or an int variable"),
        ("i = empty", "3:5: a list can't be compared, expected an integer, an int variable or a degree"),
        ("x:1 = x", "3:1: a list can't be compared"),
        ("i = \"a\"", "3:5: a string can't be held"),
        ("i = j + 1", "3:5: a sum or difference in a test can't be held, expected an integer, an int variable or a degree"),
        ("(i - 1) < j", "3:2: a sum or difference in a test can't be held"),
        ("free = 1", "3:1: the variable `free` has no value here, expected it in a left label too"),
        ("y = 1", "3:1: the variable `y` isn't declared"),
        ("length(x) = 1", "3:1: `length` can't be held"),
        ("edge(1, 2) and (i = 1", "3:22: found the end of the text, expected `)` behind the condition in parentheses"),
    ]);
}

const DEGREES: &[(&str, &str)] = &[
    ("indeg(3) = 1", "3:7: no node `3` in the left graph"),
    (
        "indeg(1) = i",
        "3:12: a degree is compared with a number alone, expected an integer",
    ),
    (
        "indeg(1) = outdeg(1)",
        "3:12: a degree is compared with a number alone",
    ),
    (
        "indeg(1) = 65536",
        "3:1: a degree compared with 65536, expected a number from 0 to 65535",
    ),
    (
        "outdeg(1) != -1",
        "3:1: a degree compared with -1, expected a number from 0 to 65535",
    ),
    (
        "outdeg(1) < 2",
        "3:1: a degree of at most 1 is an `or` of equalities, which can't be held",
    ),
    (
        "not indeg(1) >= 4",
        "3:5: a degree of at most 3 is an `or` of equalities",
    ),
    (
        "indeg(1) > 4",
        "3:1: a degree of at least 5 takes 5 tests, expected at most 4 in a rule",
    ),
    (
        "indeg(1) < 0",
        "3:1: a degree is never below 0, expected a test that can hold",
    ),
    (
        "indeg(1) >= 0",
        "3:1: a degree is always at least 0, expected a test that can fail",
    ),
    (
        "i = j and\nindeg(1) > 3",
        "4:1: a test too many, expected at most 4 in a rule",
    ),
    (
        "i = 1 and i = 2 and i = 3 and i = 4 and\n i = 5",
        "4:2: a test too many, expected at most 4 in a rule",
    ),
];

#[test]
fn degrees_that_equality_tests_cannot_say() {
    check_conditions(DEGREES);
}
