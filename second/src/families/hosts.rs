//! The hosts of each published program: some for each answer, from several families.

use super::graph::Graph;
use super::{published, ProgramRun, Published, LAYOUT};
use crate::answer;

/// A program's runs in their order.
pub struct Runs {
    program: &'static Published,
    pub listed: Vec<ProgramRun>,
}

impl Runs {
    fn of(name: &str) -> Runs {
        let program = published(name).expect("the program is listed");
        Runs { program, listed: Vec::new() }
    }

    /// A run that is meant to finish.
    fn add(&mut self, host_name: impl Into<String>, graph: Graph) {
        self.listed.push(self.program.run_on(host_name, &graph));
    }

    /// A run like the last one added, with less lent to it.
    fn again(&mut self, lack: &str, runs_out: u32, lend_less: fn(&mut ProgramRun)) {
        let mut run = self.listed.last().expect("there is a run to repeat").clone();
        lend_less(&mut run);
        run.host_name = format!("{}, {lack}", run.host_name);
        run.runs_out = Some(runs_out);
        self.listed.push(run);
    }

    /// A run that is meant to need more records than there are.
    fn add_too_large(&mut self, host_name: impl Into<String>, graph: Graph) {
        self.add(host_name, graph);
        let run = self.listed.last_mut().expect("a run has just been added");
        run.host_name += ", too large for the journal";
        run.runs_out = Some(answer::NO_ROOM_JOURNAL);
    }
}

pub fn transitive_closure() -> Runs {
    let mut runs = Runs::of("transitive-closure");
    runs.add("empty", Graph::empty());
    runs.add("discrete of 5", Graph::discrete(5));
    runs.add("complete order of 6", Graph::complete_order(6).shuffled(1));
    for length in [2, 3, 7, 12] {
        runs.add(format!("list of {length}"), Graph::list(length));
    }
    runs.again("no edge slot free", answer::NO_ROOM_EDGES, |run| run.edges.truncate(11 * LAYOUT.edge_length()));
    runs.add("shuffled list of 10", Graph::list(10).shuffled(2));
    runs.add("list of 17", Graph::list(17));
    runs.add_too_large("list of 18", Graph::list(18));
    for length in [1, 2, 3, 8] {
        runs.add(format!("cycle of {length}"), Graph::cycle(length));
    }
    runs.add("binary tree of height 3", Graph::binary_tree(3));
    runs.add("grid of 4 by 3", Graph::grid(4, 3));
    runs.add("star of 5", Graph::star(5));
    runs.add("sun of 4", Graph::sun(4));
    runs.add("two lists", Graph::list(5).beside(&Graph::list(4).reversed()));
    runs.add("labelled grid of 3 by 3", Graph::grid(3, 3).labelled(3).shuffled(3));
    runs.add("cycle of 4 with a loop and a parallel edge", Graph::cycle(4).with_edge(2, 2).with_edge(0, 1));
    for seed in 0..4 {
        runs.add(format!("random graph {seed}"), Graph::random(seed, 9, 11).labelled(seed));
    }
    runs
}

pub fn is_discrete() -> Runs {
    let mut runs = Runs::of("is-discrete");
    runs.add("empty", Graph::empty());
    for node_count in [1, 2, 60] {
        runs.add(format!("discrete of {node_count}"), Graph::discrete(node_count));
    }
    runs.again("fuel for half of it", answer::OUT_OF_FUEL, |run| run.fuel = 30);
    runs.add("labelled discrete of 20", Graph::discrete(20).labelled(1));
    runs.add("a loop", Graph::cycle(1));
    runs.add("discrete of 30 with a loop", Graph::discrete(30).with_edge(17, 17));
    runs.add("discrete of 30 with an edge", Graph::discrete(30).with_edge(29, 0));
    runs.add("list of 10", Graph::list(10));
    runs.add("cycle of 10", Graph::cycle(10));
    runs.add("binary tree of height 3", Graph::binary_tree(3));
    runs.add("star of 6", Graph::star(6));
    runs.add("grid of 5 by 5", Graph::grid(5, 5));
    for seed in 0..3 {
        runs.add(format!("random graph {seed}"), Graph::random(seed, 25, 5).labelled(seed));
    }
    runs
}

pub fn is_cycle() -> Runs {
    let mut runs = cycles_and_others("is-cycle");
    runs.add_too_large("cycle of 200", Graph::cycle(200));
    runs
}

pub fn is_cycle_by_degrees() -> Runs {
    cycles_and_others("is-cycle-by-degrees")
}

fn cycles_and_others(program: &str) -> Runs {
    let mut runs = Runs::of(program);
    for length in [1, 2, 3, 4, 10, 60] {
        runs.add(format!("cycle of {length}"), Graph::cycle(length));
    }
    for seed in 0..3 {
        runs.add(format!("shuffled cycle {seed}"), Graph::cycle(20).shuffled(seed).labelled(seed));
    }
    runs.add("empty", Graph::empty());
    runs.add("one node", Graph::discrete(1));
    runs.add("list of 8", Graph::list(8));
    runs.add("two cycles", Graph::cycle(5).beside(&Graph::cycle(4)));
    runs.add("two loops", Graph::cycle(1).beside(&Graph::cycle(1)));
    runs.add("cycle of 6 and a node", Graph::cycle(6).beside(&Graph::discrete(1)));
    runs.add("one edge of cycle of 7 reversed", Graph::list(7).with_edge(0, 6));
    runs.add("cycle of 8 with a chord", Graph::cycle(8).with_edge(2, 6));
    runs.add("cycle of 8 with a loop", Graph::cycle(8).with_edge(3, 3));
    runs.add("cycle of 2 with a loop", Graph::cycle(2).with_edge(1, 1));
    runs.add("one node with two loops", Graph::cycle(1).with_edge(0, 0));
    runs.add("cycle of 5 with a parallel edge", Graph::cycle(5).with_edge(4, 0));
    runs.add("cycle of 2 with a parallel edge", Graph::cycle(2).with_edge(1, 0));
    runs.add("sun of 7", Graph::sun(7));
    runs.add("wheel of 6", Graph::wheel(6));
    runs.add("grid of 4 by 4", Graph::grid(4, 4));
    runs.add("binary tree of height 3", Graph::binary_tree(3));
    for seed in 0..3 {
        runs.add(format!("random graph {seed}"), Graph::random(seed, 8, 8));
    }
    runs
}

pub fn is_tree() -> Runs {
    let mut runs = Runs::of("is-tree");
    runs.add("one node", Graph::discrete(1));
    for length in [2, 3, 60] {
        runs.add(format!("list of {length}"), Graph::list(length));
    }
    runs.add_too_large("list of 140", Graph::list(140));
    runs.add("binary tree of height 4", Graph::binary_tree(4));
    runs.add("shuffled binary tree of height 3", Graph::binary_tree(3).shuffled(1).labelled(1));
    runs.add("star of 9", Graph::star(9));
    for seed in 0..4 {
        runs.add(format!("random tree {seed}"), Graph::random_tree(seed, 30).shuffled(seed));
    }
    runs.add("empty", Graph::empty());
    runs.add("discrete of 2", Graph::discrete(2));
    runs.add("a loop", Graph::cycle(1));
    for length in [2, 3, 9] {
        runs.add(format!("cycle of {length}"), Graph::cycle(length));
    }
    runs.add("two trees", Graph::binary_tree(2).beside(&Graph::star(3)));
    runs.add("tree and cycle", Graph::binary_tree(2).beside(&Graph::cycle(4)));
    runs.add("cycle and node with a loop", Graph::cycle(3).beside(&Graph::cycle(1)));
    runs.add("reversed binary tree of height 3", Graph::binary_tree(3).reversed());
    runs.add("binary tree with a loop at its root", Graph::binary_tree(3).with_edge(0, 0));
    runs.add("binary tree with a loop within", Graph::binary_tree(3).with_edge(2, 2));
    runs.add("binary tree with a loop at a leaf", Graph::binary_tree(3).with_edge(14, 14));
    runs.add("binary tree with an edge across", Graph::binary_tree(3).with_edge(3, 12));
    runs.add("binary tree with an edge back", Graph::binary_tree(3).with_edge(13, 2));
    runs.add("list of 6 with a parallel edge", Graph::list(6).with_edge(3, 4));
    runs.add("a list into a cycle", Graph::list(6).with_edge(5, 2));
    runs.add("grid of 4 by 4", Graph::grid(4, 4));
    runs.add("sun of 5", Graph::sun(5));
    for seed in 0..3 {
        runs.add(format!("turned random tree {seed}"), Graph::random_tree(seed, 12).turned(seed));
    }
    runs
}

pub fn is_binary_dag() -> Runs {
    let mut runs = Runs::of("is-binary-dag");
    runs.add("empty", Graph::empty());
    runs.add("discrete of 12", Graph::discrete(12));
    runs.add("list of 40", Graph::list(40));
    runs.add("reversed list of 25", Graph::list(25).reversed());
    runs.add("binary tree of height 4", Graph::binary_tree(4));
    runs.add("reversed binary tree of height 3", Graph::binary_tree(3).reversed());
    runs.add("grid of 5 by 5", Graph::grid(5, 5));
    runs.add("shuffled grid of 4 by 4", Graph::grid(4, 4).shuffled(1).labelled(1));
    runs.add("chain of 3 grids of 3 by 3", Graph::grid_chain(3, 3));
    runs.add("star of 2", Graph::star(2));
    runs.add("list of 5 with each edge doubled", Graph::list(5).doubled());
    runs.add("two grids", Graph::grid(3, 2).beside(&Graph::grid(2, 4)));
    for seed in 0..5 {
        runs.add(format!("random binary order {seed}"), Graph::random_binary_order(seed, 22).shuffled(seed));
    }
    runs.add_too_large("reversed list of 170", Graph::list(170).reversed());
    runs.add("a loop", Graph::cycle(1));
    for length in [2, 3, 12] {
        runs.add(format!("cycle of {length}"), Graph::cycle(length));
    }
    runs.add("star of 3", Graph::star(3));
    runs.add("sun of 6", Graph::sun(6));
    runs.add("wheel of 5", Graph::wheel(5));
    runs.add("list and cycle", Graph::list(5).beside(&Graph::cycle(3)));
    runs.add("list of 9 with a loop", Graph::list(9).with_edge(4, 4));
    runs.add("grid of 4 by 4 with an edge back", Graph::grid(4, 4).with_edge(15, 5));
    runs.add("grid of 4 by 4 with a third edge from one node", Graph::grid(4, 4).with_edge(5, 15));
    runs.add("three parallel edges", Graph::list(2).with_edge(0, 1).with_edge(0, 1));
    runs.add("two cycles through one node", Graph::of(3, &[(0, 1), (1, 0), (0, 2), (2, 0)]));
    runs.add("complete order of 6", Graph::complete_order(6));
    for seed in 0..3 {
        runs.add(format!("random graph {seed}"), Graph::random(seed, 12, 10));
    }
    runs
}

pub fn is_connected() -> Runs {
    let mut runs = Runs::of("is-connected");
    runs.add("empty", Graph::empty());
    runs.add("one node", Graph::discrete(1));
    runs.add("a loop", Graph::cycle(1));
    runs.add("list of 60", Graph::list(60));
    runs.add_too_large("list of 140", Graph::list(140));
    runs.add("turned list of 30", Graph::list(30).turned(1).shuffled(1));
    runs.add("cycle of 25", Graph::cycle(25));
    runs.add("binary tree of height 4", Graph::binary_tree(4));
    runs.add("star of 10", Graph::star(10));
    runs.add("sun of 8", Graph::sun(8));
    runs.add("grid of 6 by 6", Graph::grid(6, 6));
    for seed in 0..4 {
        runs.add(format!("random connected graph {seed}"), Graph::random_connected(seed, 20, 12).labelled(seed));
    }
    runs.add("discrete of 2", Graph::discrete(2));
    runs.add("discrete of 20", Graph::discrete(20));
    runs.add("two lists", Graph::list(9).beside(&Graph::list(7)));
    runs.add("two cycles", Graph::cycle(9).beside(&Graph::cycle(7)).shuffled(2));
    runs.add("grid and node", Graph::grid(4, 4).beside(&Graph::discrete(1)));
    runs.add("grid and node with a loop", Graph::grid(4, 4).beside(&Graph::cycle(1)));
    runs.add("three trees", Graph::binary_tree(2).beside(&Graph::star(2)).beside(&Graph::random_tree(1, 9)));
    for seed in 0..4 {
        runs.add(format!("random graph {seed}"), Graph::random(seed, 14, 16));
    }
    runs
}

pub fn two_colouring() -> Runs {
    let mut runs = Runs::of("2-colouring");
    runs.add("empty", Graph::empty());
    runs.add("one node", Graph::discrete(1));
    runs.add("a loop", Graph::cycle(1));
    runs.add("list of 40", Graph::list(40));
    runs.add_too_large("list of 140", Graph::list(140));
    for length in [2, 4, 30] {
        runs.add(format!("cycle of {length}"), Graph::cycle(length));
    }
    runs.add("binary tree of height 4", Graph::binary_tree(4));
    runs.add("star of 12", Graph::star(12));
    runs.add("sun of 6", Graph::sun(6));
    runs.add("grid of 6 by 6", Graph::grid(6, 6));
    runs.add("grid of 4 by 4 with a loop and a parallel edge", Graph::grid(4, 4).with_edge(9, 9).with_edge(6, 5));
    for seed in 0..5 {
        let two_sided = Graph::random_two_sided(seed, 18, 10).shuffled(seed);
        runs.add(format!("random two-sided graph {seed}"), two_sided.labelled(seed));
    }
    for length in [3, 5, 29] {
        runs.add(format!("cycle of {length}"), Graph::cycle(length));
    }
    runs.add("sun of 7", Graph::sun(7));
    runs.add("wheel of 8", Graph::wheel(8));
    runs.add("complete order of 5", Graph::complete_order(5));
    runs.add("grid of 5 by 5 with a diagonal", Graph::grid(5, 5).with_edge(18, 24));
    runs.add("list of 20 into a triangle", Graph::list(20).with_edge(19, 17));
    runs.add("list of 20 with an edge ahead", Graph::list(20).with_edge(17, 19));
    for seed in 0..4 {
        runs.add(format!("random connected graph {seed}"), Graph::random_connected(seed, 16, 4).labelled(seed));
    }
    runs
}

pub fn topological_sorting() -> Runs {
    let mut runs = Runs::of("topological-sorting");
    runs.add("empty", Graph::empty());
    runs.add("one node", Graph::discrete(1));
    runs.add("list of 2", Graph::list(2));
    runs.again("no node slot free", answer::NO_ROOM_NODES, |run| run.nodes.truncate(2 * LAYOUT.node_length()));
    runs.add("list of 25", Graph::list(25));
    runs.add("reversed list of 12", Graph::list(12).reversed());
    runs.add("shuffled list of 16", Graph::list(16).shuffled(1));
    runs.add_too_large("list of 60", Graph::list(60));
    runs.add("binary tree of height 3", Graph::binary_tree(3));
    runs.add("reversed binary tree of height 3", Graph::binary_tree(3).reversed());
    runs.add("star of 6", Graph::star(6));
    runs.add("grid of 4 by 4", Graph::grid(4, 4));
    runs.add("shuffled grid of 5 by 4", Graph::grid(5, 4).shuffled(3).labelled(3));
    runs.add("chain of 3 grids of 3 by 3", Graph::grid_chain(3, 3));
    runs.add("complete order of 8", Graph::complete_order(8).shuffled(4));
    runs.add("list of 6 with each edge doubled", Graph::list(6).doubled());
    for seed in 0..5 {
        let order = Graph::random_connected_order(seed, 16, 12).shuffled(seed);
        runs.add(format!("random connected order {seed}"), order.labelled(seed));
    }
    runs.add("a loop", Graph::cycle(1));
    for length in [2, 3, 12] {
        runs.add(format!("cycle of {length}"), Graph::cycle(length).shuffled(5));
    }
    runs.add("sun of 6", Graph::sun(6));
    runs.add("wheel of 6", Graph::wheel(6));
    runs.add("list of 10 with a loop", Graph::list(10).with_edge(6, 6));
    runs.add("list of 10 with an edge back", Graph::list(10).with_edge(8, 3));
    runs.add("reversed list of 10 with an edge back", Graph::list(10).reversed().with_edge(2, 3));
    runs.add("grid of 4 by 4 with an edge back", Graph::grid(4, 4).with_edge(14, 1));
    runs.add("cycle of 4 into a list", Graph::cycle(4).beside(&Graph::list(5)).with_edge(1, 4));
    runs.add("list into a cycle of 4", Graph::list(5).beside(&Graph::cycle(4)).with_edge(4, 6));
    for seed in 0..4 {
        runs.add(format!("random connected graph {seed}"), Graph::random_connected(seed, 12, 8).labelled(seed));
    }
    runs
}

pub fn minimum_spanning_tree() -> Runs {
    let mut runs = Runs::of("minimum-spanning-tree");
    runs.add("one node", Graph::discrete(1));
    runs.add("one node with a loop", Graph::cycle(1).weighted(1, 1, 9));
    runs.add("one edge", Graph::list(2).weighted(1, 1, 9));
    runs.again("one node slot free", answer::NO_ROOM_NODES, |run| run.nodes.truncate(3 * LAYOUT.node_length()));
    runs.add("list of 12", Graph::list(12).weighted(2, 1, 1000));
    runs.add("cycle of 3 with equal weights", Graph::cycle(3).weighted(3, 7, 7));
    runs.add("cycle of 10", Graph::cycle(10).weighted(4, 1, 1000));
    runs.add("cycle of 9 with equal weights", Graph::cycle(9).weighted(5, 1, 1).shuffled(5));
    runs.add("star of 5", Graph::star(5).weighted(6, 1, 50));
    runs.add("binary tree of height 3", Graph::binary_tree(3).weighted(7, -20, 20));
    runs.add("wheel of 6", Graph::wheel(6).weighted(8, 1, 1000));
    runs.add("wheel of 9", Graph::wheel(9).weighted(9, 1, 3));
    runs.add("grid of 3 by 3", Graph::grid(3, 3).weighted(10, 1, 1000));
    runs.add("grid of 4 by 3", Graph::grid(4, 3).weighted(11, -5, 5).turned(11));
    runs.add("grid of 4 by 4", Graph::grid(4, 4).weighted(12, 1, 1000));
    runs.add("grid of 5 by 4", Graph::grid(5, 4).weighted(22, 1, 1000));
    runs.add_too_large("grid of 6 by 5", Graph::grid(6, 5).weighted(13, 1, 1000));
    runs.add("complete order of 7", Graph::complete_order(7).weighted(14, 1, 30));
    runs.add("list of 5 with each edge doubled", Graph::list(5).doubled().weighted(15, 1, 4).turned(15));
    runs.add("cycle of 6 with extreme weights", Graph::cycle(6).weighted(16, i32::MIN, i32::MAX));
    runs.add("wheel of 4 with the largest weight alone", Graph::wheel(4).weighted(17, i32::MAX, i32::MAX));
    runs.add("wheel of 4 with the largest weights", Graph::wheel(4).weighted(18, i32::MAX - 2, i32::MAX));
    for seed in 0..6 {
        let connected = Graph::random_connected(seed, 10, 10).shuffled(seed);
        runs.add(format!("random connected graph {seed}"), connected.weighted(seed, 1, 12));
    }
    runs.add("empty", Graph::empty());
    runs.add("discrete of 2", Graph::discrete(2));
    runs.add("two lists", Graph::list(4).beside(&Graph::list(3)).weighted(19, 1, 9));
    runs.add("wheel and node", Graph::wheel(5).beside(&Graph::discrete(1)).weighted(20, 1, 9));
    runs.add("two cycles", Graph::cycle(4).beside(&Graph::cycle(4)).weighted(21, 1, 9).shuffled(21));
    runs
}
