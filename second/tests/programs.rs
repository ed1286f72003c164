//! The published programs on all of their hosts: is the purpose of each program met?
//!
//! What a run should give is computed on the graph by ordinary code (reachability, colouring, sorting, Kruskal's
//! algorithm) and not by rules.

#[path = "programs/graphs.rs"]
mod graphs;
#[path = "programs/purposes.rs"]
mod purposes;

use std::collections::BTreeSet;
use std::path::{Path, PathBuf};

use graphs::{is_connected, Graph};
use purposes::{demand, purpose, Left};

use second::calls::{self, Outcome};
use second::families::{self, assembled, Input, ProgramRun, Published, PROGRAMS};
use second::layout::{Core, Layout};
use second::tree::{mark, Operand, Relation, Test, TestKind};
use second::{encode, text};

// Running.

fn image_of(program: &Published) -> Vec<u8> {
    encode::program(&assembled(program))
}

fn run(run: &ProgramRun, image: &[u8]) -> Outcome {
    let journal = vec![0; usize::from(run.records) * Layout::BASE.record_length()];
    calls::run(&run.nodes, &run.edges, &journal, image, run.fuel, &[0; 8])
}

/// Answer and graph after a run that is meant to finish; nothing after one that is meant to run out of something.
fn left_by(program_run: &ProgramRun, outcome: &Outcome) -> Result<Option<Left>, String> {
    let untouched = outcome.nodes == program_run.nodes && outcome.edges == program_run.edges;
    demand(outcome.answer == 0 || untouched, "the tables have changed without a result")?;
    if let Some(answer) = program_run.runs_out {
        demand(outcome.answer == answer, &format!("answer {} instead of {answer}", outcome.answer))?;
        return Ok(None);
    }
    demand(outcome.answer < 2, &format!("the run didn't finish, answer {}", outcome.answer))?;
    Ok(Some(Left { answer: outcome.answer, graph: Graph::read(&outcome.nodes, &outcome.edges) }))
}

fn check(program_run: &ProgramRun, image: &[u8]) -> Result<(), String> {
    let before = Graph::read(&program_run.nodes, &program_run.edges);
    match left_by(program_run, &run(program_run, image))? {
        Some(left) => purpose(program_run.program, &before, &left),
        None => Ok(()),
    }
}

/// Checks all runs of one program and panics with what is wrong.
fn check_all(program: &Published, runs: impl Iterator<Item = ProgramRun>) {
    let image = image_of(program);
    let complaint = |run: ProgramRun| {
        let wrong = check(&run, &image).err()?;
        Some(format!("{} on {}: {wrong}", run.program, run.host_name))
    };
    let complaints: Vec<String> = runs.filter_map(complaint).take(20).collect();
    assert!(complaints.is_empty(), "{}", complaints.join("\n"));
}

fn listed_runs(program: &Published) -> impl Iterator<Item = ProgramRun> + '_ {
    families::program_runs().into_iter().filter(|run| run.program == program.name)
}

/// The host files beside a program.
fn host_files(program: &Published) -> Vec<PathBuf> {
    let folder = Path::new(env!("CARGO_MANIFEST_DIR")).join("../programs").join(program.name);
    let listing = std::fs::read_dir(&folder).expect("the program has a folder");
    let mut files: Vec<PathBuf> = listing.map(|entry| entry.expect("a folder entry is readable").path()).collect();
    files.retain(|file| file.extension().is_some_and(|extension| extension == "host"));
    files.sort();
    files
}

fn run_of_host_file(program: &Published, file: &Path) -> ProgramRun {
    let name = file.file_name().expect("a file has a name").to_string_lossy().into_owned();
    let source = std::fs::read_to_string(file).expect("a host file is text");
    let graph = text::read_graph(Core::Wide, &name, &source).unwrap_or_else(|complaint| panic!("{}/{complaint}", program.name));
    let (free_nodes, free_edges) = (program.room)(graph.nodes.len());
    let tables = graph.tables(graph.listed_nodes + free_nodes, graph.listed_edges + free_edges);
    let (nodes, edges) = tables.unwrap_or_else(|problem| panic!("{}/{name}: {problem}", program.name));
    program.run_on_tables(name, nodes, edges)
}

/// Every graph of at most three nodes, every loopless one of four, and random ones with parallel edges. Weights are
/// few, so that many are equal.
fn small_runs(program: &Published) -> impl Iterator<Item = ProgramRun> + '_ {
    let three = (0..4).flat_map(|nodes| families::Graph::every(nodes, true));
    let four = families::Graph::every(4, false);
    let random = (0..500).map(|seed| families::Graph::random(seed, 5, 8));
    let graphs = three.chain(four).chain(random).enumerate();
    let runs = graphs.map(move |(number, graph)| match program.input {
        Input::Weighted => program.run_on(format!("small graph {number}"), &graph.weighted(number as u64, 1, 3)),
        _ => program.run_on(format!("small graph {number}"), &graph),
    });
    let only_connected = program.input == Input::GreyConnected;
    runs.filter(move |run| !only_connected || is_connected(&Graph::read(&run.nodes, &run.edges)))
}

// The tests.

#[test]
fn every_program_meets_its_purpose_on_its_listed_hosts() {
    for program in &PROGRAMS {
        check_all(program, listed_runs(program));
    }
}

#[test]
fn every_program_meets_its_purpose_on_its_host_files() {
    for program in &PROGRAMS {
        let files = host_files(program);
        assert!(files.len() >= 2, "{} has too few host files", program.name);
        check_all(program, files.iter().map(|file| run_of_host_file(program, file)));
    }
}

#[test]
fn every_program_meets_its_purpose_on_small_graphs() {
    std::thread::scope(|scope| {
        for program in &PROGRAMS {
            scope.spawn(|| check_all(program, small_runs(program)));
        }
    });
}

/// Each program changes some of its hosts, and leaves others as they were, mostly with a fail.
#[test]
fn every_program_has_hosts_for_either_answer() {
    for program in &PROGRAMS {
        let image = image_of(program);
        let finished = listed_runs(program).filter(|run| run.runs_out.is_none());
        let (changed, unchanged): (Vec<ProgramRun>, Vec<ProgramRun>) = finished.partition(|program_run| {
            let outcome = run(program_run, &image);
            outcome.nodes != program_run.nodes || outcome.edges != program_run.edges
        });
        assert!(changed.len() >= 4 && unchanged.len() >= 4, "{} is one-sided", program.name);
    }
}

/// The rule loop of is-tree never matches on its input, as its text says.
const NEEDED_BY_NONE: (&str, usize) = ("is-tree", 5);

/// With any one rule of a program kept from matching, a run on one of its hosts goes another way.
#[test]
fn every_rule_is_needed_by_some_host() {
    let zero = Operand::Constant(0);
    let never = Test { negated: false, kind: TestKind::Relation(Relation::Less, zero, zero) };
    for program in &PROGRAMS {
        let whole = assembled(program);
        let whole_image = encode::program(&whole);
        let runs: Vec<ProgramRun> = listed_runs(program).filter(|run| run.runs_out.is_none()).collect();
        let outcomes: Vec<Outcome> = runs.iter().map(|program_run| run(program_run, &whole_image)).collect();
        for number in 0..whole.rules.len() {
            let mut crippled = whole.clone();
            crippled.rules[number].tests = vec![never];
            let image = encode::program(&crippled);
            let mut pairs = runs.iter().zip(&outcomes);
            let needed = pairs.any(|(program_run, outcome)| run(program_run, &image) != *outcome);
            let expected = (program.name, number) != NEEDED_BY_NONE;
            assert_eq!(needed, expected, "hosts and rule {number} of {}", program.name);
        }
    }
}

/// The degrees that is-cycle-by-degrees asks for are those that the dangling condition asks for.
#[test]
fn is_cycle_does_the_same_with_its_degrees_written_out() {
    let [plain, by_degrees] = ["is-cycle", "is-cycle-by-degrees"].map(|name| families::published(name).expect("both are published"));
    let [plain_image, image] = [plain, by_degrees].map(image_of);
    for program_run in listed_runs(plain).chain(small_runs(plain)) {
        assert_eq!(run(&program_run, &image), run(&program_run, &plain_image), "{}", program_run.host_name);
    }
}

/// The names of a program's hosts differ, and each run fits in a field that holds a runner input.
#[test]
fn listed_runs_can_be_told_apart_and_stored() {
    let mut names = BTreeSet::new();
    for program_run in families::program_runs() {
        let ProgramRun { program, host_name, .. } = &program_run;
        let image = image_of(families::published(program).expect("the program is published"));
        assert!(program_run.runner_image(&image).len() <= usize::from(u16::MAX), "{program} on {host_name} is too long");
        assert!(names.insert((*program, host_name.clone())), "{program} twice on {host_name}");
    }
}

// The purposes themselves are tested: what is wrong is refused.

#[test]
fn another_answer_is_refused() {
    for program in &PROGRAMS {
        for file in host_files(program) {
            let (before, left) = finished(program, &file);
            let wrong = Left { answer: 1 - left.answer, graph: before.clone() };
            assert!(purpose(program.name, &before, &wrong).is_err(), "{} isn't refused", file.display());
        }
    }
}

fn recolour_a_node(graph: &mut Graph) {
    let node = graph.nodes.values_mut().next().expect("there is a node");
    node.mark = if node.mark == mark::RED { mark::BLUE } else { mark::RED };
}

fn lose_an_edge(graph: &mut Graph) {
    graph.edges.pop_last().expect("there is an edge");
}

fn remark_an_edge(graph: &mut Graph) {
    let edge = graph.edges.values_mut().next().expect("there is an edge");
    edge.mark = if edge.mark == mark::BLUE { mark::NONE } else { mark::BLUE };
}

/// Node 4 has to stand before node 5.
fn swap_two_in_the_order(graph: &mut Graph) {
    let swapped = |node: usize| [5, 4].get(node.wrapping_sub(4)).copied().unwrap_or(node);
    for edge in graph.edges.values_mut().filter(|edge| edge.mark == mark::BLUE) {
        (edge.source, edge.target) = (swapped(edge.source), swapped(edge.target));
    }
}

/// The tree stays a tree if the edge of weight 5 takes the place of that of weight 1.
fn make_the_tree_heavier(graph: &mut Graph) {
    for edge in graph.edges.values_mut() {
        match edge.label[..] {
            [1] => edge.mark = mark::NONE,
            [5] => edge.mark = mark::BLUE,
            _ => {}
        }
    }
}

type Spoil = fn(&mut Graph);

/// A program, a host file of it, what is spoiled in the result, and the complaint of it.
const SPOILED: [(&str, &str, Spoil, &str); 9] = [
    ("transitive-closure", "list.host", lose_an_edge, "the edges aren't those of the closure"),
    ("transitive-closure", "list.host", remark_an_edge, "the edges aren't those of the closure"),
    ("2-colouring", "yes.host", recolour_a_node, "an edge joins two nodes of one colour"),
    ("2-colouring", "no.host", recolour_a_node, "without a colouring the input is the result"),
    ("topological-sorting", "yes.host", lose_an_edge, "the blue path doesn't meet each node once"),
    ("topological-sorting", "yes.host", swap_two_in_the_order, "an edge leads back in the order"),
    ("minimum-spanning-tree", "yes.host", lose_an_edge, "edges have changed in more than their marks"),
    ("minimum-spanning-tree", "yes.host", remark_an_edge, "the blue edges aren't a spanning tree"),
    ("minimum-spanning-tree", "yes.host", make_the_tree_heavier, "there is a lighter spanning tree"),
];

#[test]
fn a_spoiled_result_is_refused() {
    for (name, host, spoil, complaint) in SPOILED {
        let program = families::published(name).expect("the program is published");
        let files = host_files(program);
        let file = files.iter().find(|file| file.ends_with(host)).expect("the host file is there");
        let (before, mut left) = finished(program, file);
        assert_eq!(purpose(name, &before, &left), Ok(()));
        spoil(&mut left.graph);
        assert_eq!(purpose(name, &before, &left), Err(complaint.to_string()), "{name} on {host}");
    }
}

/// A host file's graph, and what the program leaves of it.
fn finished(program: &Published, file: &Path) -> (Graph, Left) {
    let program_run = run_of_host_file(program, file);
    let left = left_by(&program_run, &run(&program_run, &image_of(program)));
    let before = Graph::read(&program_run.nodes, &program_run.edges);
    (before, left.expect("the run is right").expect("the run finishes"))
}
