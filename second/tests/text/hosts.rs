//! Host graphs, alone and behind a program, and the tables that they fill.

use super::helpers::{EDGE, NODE, THREE_RULES};
use second::encode;
use second::layout::Core;
use second::text::{assemble, read_graph, runner_input, HostGraph, Sizes};
use second::tree::{mark, Command, Program};

fn graph(source: &str) -> HostGraph {
    read_graph(Core::Wide, "test", source).unwrap_or_else(|complaint| panic!("{complaint}"))
}

fn refusal(source: &str) -> String {
    let complaint = read_graph(Core::Wide, "host", source).expect_err("not refused");
    complaint.to_string()["host:".len()..].to_string()
}

#[test]
fn nodes_and_edges_keep_the_order_read() {
    let graph = graph(
        "// Two nodes.
        [ (b(R), 5:-6 # grey) (7, empty) | (x, 7, b, empty # dashed) (7, b, b, 1:2:3:4 # red) ]",
    );
    assert_eq!(graph.nodes[0].identifier, "b");
    assert_eq!(
        (graph.nodes[0].mark, graph.nodes[0].root),
        (mark::GREY, true)
    );
    assert_eq!(graph.nodes[0].atoms, [5, -6]);
    assert_eq!(
        (graph.nodes[1].mark, graph.nodes[1].root),
        (mark::NONE, false)
    );
    assert_eq!(graph.nodes[1].atoms, []);
    assert_eq!((graph.edges[0].source, graph.edges[0].target), (1, 0));
    assert_eq!((graph.edges[1].source, graph.edges[1].target), (0, 0));
    assert_eq!(graph.edges[0].mark, mark::DASHED);
    assert_eq!(graph.edges[1].atoms, [1, 2, 3, 4]);
}

#[test]
fn tables_have_the_asked_slots_with_free_ones_behind() {
    let graph = graph("[ (1, 5) (2(R), empty # red) | (1, 2, 1, -1 # dashed) ]");
    let (nodes, edges) = graph.tables(3, 2).expect("enough slots");
    let live_nodes = [
        encode::node_slot(0, false, &[5]),
        encode::node_slot(1, true, &[]),
    ];
    assert_eq!(nodes, [live_nodes.concat(), vec![0; NODE]].concat());
    let live_edge = encode::edge_slot(mark::DASHED, 1, 0, &[-1]);
    assert_eq!(edges, [live_edge.to_vec(), vec![0; EDGE]].concat());
}

#[test]
fn an_empty_pair_of_parentheses_keeps_a_slot_free() {
    let graph = graph("[ () (1, 5) () (2, 6) | () (1, 2, 1, empty) ]");
    assert_eq!(
        graph.nodes.iter().map(|node| node.slot).collect::<Vec<_>>(),
        [1, 3]
    );
    let (nodes, edges) = graph.tables(4, 2).expect("enough slots");
    assert_eq!(nodes[..NODE], [0; NODE]);
    assert_eq!(nodes[NODE..2 * NODE], encode::node_slot(0, false, &[5]));
    assert_eq!(nodes[3 * NODE..], encode::node_slot(0, false, &[6]));
    assert_eq!(edges[EDGE..], encode::edge_slot(0, 3, 1, &[]));
}

#[test]
fn tables_are_refused_with_too_few_or_too_many_slots() {
    let graph = graph("[ (1, 5) () | (1, 1, 1, empty) ]");
    assert!(graph.tables(2, 1).is_ok());
    assert!(graph.tables(512, 1024).is_ok());
    let refused = |nodes, edges| graph.tables(nodes, edges).expect_err("refused");
    assert_eq!(
        refused(1, 1),
        "1 node slots, expected from 2 (the host graph's) to 512"
    );
    assert_eq!(
        refused(513, 1),
        "513 node slots, expected from 2 (the host graph's) to 512"
    );
    assert_eq!(
        refused(2, 0),
        "0 edge slots, expected from 1 (the host graph's) to 1024"
    );
    assert_eq!(
        refused(2, 1025),
        "1025 edge slots, expected from 1 (the host graph's) to 1024"
    );
}

#[test]
fn a_runner_input_takes_its_usual_numbers() {
    let program = Program::without_procedures(vec![], Command::Skip);
    let graph = graph("[ (1, 5) (2, 6) | (1, 1, 2, empty) ]");
    let input = runner_input(&program, &graph, &Sizes::default()).expect("legal");
    assert_eq!((input.fuel, input.records), (100_000, 1024));
    assert_eq!(input.nodes.len(), (2 + 16) * NODE);
    assert_eq!(input.edges.len(), (1 + 16) * EDGE);
}

/// Tables of the greatest size leave 6,123 bytes to a program.
#[test]
fn a_runner_input_over_the_runners_limit_is_refused() {
    let graph = graph("[ (1, 5) | ]");
    let sizes = Sizes {
        nodes: Some(512),
        edges: Some(1024),
        ..Sizes::default()
    };
    let row = Command::Sequence(vec![Command::RuleSet(vec![0; 8]); 16]);
    let program = |rows: usize| {
        let rows = [16, 16, rows].map(|count| Command::Sequence(vec![row.clone(); count]));
        Program::without_procedures(vec![], Command::Sequence(rows.to_vec()))
    };
    assert_eq!(encode::program(&program(2)).len(), 6_098);
    assert!(runner_input(&program(2), &graph, &sizes).is_ok());
    assert_eq!(
        runner_input(&program(3), &graph, &sizes),
        Err("the runner's input takes 65,690 bytes, expected at most 65,536: fewer slots, or a shorter program".to_string())
    );
}

#[test]
fn usual_slots_stay_within_the_tables() {
    let nodes: String = (0..510)
        .map(|number| format!("({number}, empty)"))
        .collect();
    let edges: String = (0..1020)
        .map(|number| format!("({number}, 0, 1, empty)"))
        .collect();
    let graph = graph(&format!("[ {nodes} | {edges} ]"));
    assert_eq!(
        (graph.usual_node_slots(), graph.usual_edge_slots()),
        (512, 1024)
    );
}

#[test]
fn a_host_section_gives_graph_and_numbers() {
    let source = format!(
        "Main = a{THREE_RULES}
        host fuel 10 records 8 nodes 2 edges 1 [ (0, 5) (1, 7) | (0, 0, 1, empty) ]"
    );
    let host = assemble("test", &source)
        .expect("legal")
        .host
        .expect("a host section");
    let sizes = Sizes {
        fuel: Some(10),
        records: Some(8),
        nodes: Some(2),
        edges: Some(1),
    };
    assert_eq!(host.sizes, sizes);
    assert_eq!(host.graph.nodes.len(), 2);
}

#[test]
fn a_host_section_may_leave_numbers_out_and_a_rule_may_be_called_host() {
    let source = "Main = host host() [ | ] => [ | ] interface = {} host edges 3 [ | ]";
    let assembly = assemble("test", source).expect("legal");
    assert_eq!(assembly.program.rules.len(), 1);
    let sizes = assembly.host.expect("a host section").sizes;
    assert_eq!(
        sizes,
        Sizes {
            edges: Some(3),
            ..Sizes::default()
        }
    );
}

/// Host sections on the second line, and the start of the refusal of each.
const REFUSED_SECTIONS: &[(&str, &str)] = &[
    (
        "host fuel 1000001 [ | ]",
        "2:11: fuel: 1000001 is out of range, expected a number from 0 to 1000000",
    ),
    (
        "host records 1025 [ | ]",
        "2:14: records: 1025 is out of range, expected a number from 0 to 1024",
    ),
    (
        "host nodes 513 [ | ]",
        "2:12: nodes: 513 is out of range, expected a number from 0 to 512",
    ),
    (
        "host edges 99999999999999999999 [ | ]",
        "2:12: edges: 99999999999999999999 is out of range",
    ),
    (
        "host fuel 1 fuel 1 [ | ]",
        "2:18: fuel: given twice, expected once",
    ),
    (
        "host steps 1 [ | ]",
        "2:6: found `steps`, expected fuel, records, nodes, edges or the host graph's `[`",
    ),
    (
        "host fuel [ | ]",
        "2:11: found `[`, expected a number behind `fuel`",
    ),
    (
        "host nodes 0 [ (1, 1) | ]",
        "2:1: 0 node slots, expected from 1 (the host graph's) to 512",
    ),
    (
        "host [ | ] Main = skip",
        "2:12: found `Main`, expected the end of the text behind the host section",
    ),
    (
        "host\n[ (1, x) | ]",
        "3:7: a host label has integers alone, expected one",
    ),
];

#[test]
fn host_sections_are_refused_with_their_places() {
    let refusal = |section: &str| {
        let complaint = assemble("test", &format!("Main = skip\n{section}"));
        complaint.expect_err("not refused").to_string()["test:".len()..].to_string()
    };
    for (section, expected) in REFUSED_SECTIONS {
        let found = refusal(section);
        assert!(found.starts_with(expected), "{section}\n{found}");
    }
}

/// Host graphs, and the start of the refusal of each.
const REFUSED_GRAPHS: &[(&str, &str)] = &[
    (
        "",
        "1:1: found the end of the text, expected `[` at the start of the host graph",
    ),
    (
        "[ (1, 5) ]",
        "1:10: found `]`, expected `|` behind the nodes, or `(` and a node",
    ),
    (
        "[ (1, 5) | (1, 1, 1, 5)",
        "1:24: found the end of the text, expected `]` behind the edges",
    ),
    (
        "[ | ] x",
        "1:7: found `x`, expected the end of the text behind the host graph",
    ),
    (
        "[ (1, 5) (1, 6) | ]",
        "1:11: the node `1` twice, expected each identifier once",
    ),
    (
        "[ (1, 5) |\n (e, 1, 1, 6) (e, 1, 1, 6) ]",
        "2:16: the edge `e` twice, expected each identifier once",
    ),
    (
        "[ (1, 5) | (e, 2, 1, 6) ]",
        "1:16: no node `2`, expected one of the host graph's identifiers",
    ),
    (
        "[ (1, 5) | (e, 1, 2, 6) ]",
        "1:19: no node `2`, expected one of the host graph's identifiers",
    ),
    (
        "[ (1, 5) | (e(B), 1, 1, 6) ]",
        "1:13: a bidirectional edge in a host graph, expected no `(B)`",
    ),
    (
        "[ (1, 2147483648) | ]",
        "1:7: 2147483648 can't be held, expected a number from -2147483648",
    ),
    (
        "[ (1, -2147483649) | ]",
        "1:7: -2147483649 can't be held, expected a number from -2147483648",
    ),
    (
        "[ (1, 1:2:3:4:5:6:7:8:9) | ]",
        "1:23: an atom too many, expected at most 8",
    ),
    (
        "[ (1, 1+1) | ]",
        "1:7: a host label has integers alone, expected one",
    ),
    (
        "[ (1, \"a\") | ]",
        "1:7: a string can't be held, expected an integer or a variable",
    ),
    (
        "[ (1, 5 # any) | ]",
        "1:11: mark any in a host graph, expected another mark or none",
    ),
    (
        "[ (1, 5 # dashed) | ]",
        "1:11: found `dashed`, expected a mark of a node: red, green, blue, grey, any",
    ),
    (
        "[ (1, 5) | (1, 1, 1, 5 # grey) ]",
        "1:26: found `grey`, expected a mark of an edge: red, green, blue, dashed, any",
    ),
    (
        "[ (1) | ]",
        "1:5: found `)`, expected `,` and a label behind the node's identifier",
    ),
];

#[test]
fn host_graphs_are_refused_with_their_places() {
    for (source, expected) in REFUSED_GRAPHS {
        let found = refusal(source);
        assert!(found.starts_with(expected), "{source}\n{found}");
    }
}

#[test]
fn the_slot_behind_a_full_table_is_refused() {
    let nodes = vec!["()"; 513].join(" ");
    let found = refusal(&format!("[ {nodes} | ]"));
    assert_eq!(found, "1:1539: a node slot too many, expected at most 512");
    let edges = vec!["()"; 1025].join("\n");
    let found = refusal(&format!("[ |\n{edges} ]"));
    assert_eq!(
        found,
        "1026:1: an edge slot too many, expected at most 1024"
    );
}
