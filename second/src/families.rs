//! The published programs, and families of host graphs to run them on.
//!
//! The graphs come from a small deterministic generator: shapes by rule (lists, cycles, trees, grids, stars and
//! others) and random ones from fixed seeds. The same call gives the same bytes on any machine.

mod graph;
mod hosts;

pub use graph::{Edge, Graph, Node};

use crate::calls::MOST_FUEL;
use crate::encode::{self, RunnerInput};
use crate::layout::Layout;
use crate::text;
use crate::tree::Program;

/// The layout of the tables.
const LAYOUT: &Layout = &Layout::BASE;

/// A published program and what it expects of a host.
#[derive(Clone, Copy, Debug)]
pub struct Published {
    pub name: &'static str,
    /// Its text, which lies in `programs/NAME/NAME.gp2`.
    pub source: &'static str,
    pub input: Input,
    /// The free node and edge slots that it may take on a host of so many nodes.
    pub room: fn(usize) -> (usize, usize),
}

/// The graphs that a program is made for. Edges are unmarked, and there are no roots.
#[derive(Clone, Copy, Debug, PartialEq, Eq)]
pub enum Input {
    Unmarked,
    Grey,
    GreyConnected,
    /// Unmarked, nodes without and edges with a number as label.
    Weighted,
}

macro_rules! published {
    ($name:literal, $input:expr, $room:expr) => {
        Published {
            name: $name,
            source: include_str!(concat!("../../programs/", $name, "/", $name, ".gp2")),
            input: $input,
            room: $room,
        }
    };
}

pub const PROGRAMS: [Published; 10] = [
    published!("transitive-closure", Input::Unmarked, |nodes| (0, nodes * nodes.saturating_sub(1))),
    published!("is-discrete", Input::Unmarked, |_| (0, 0)),
    published!("is-cycle", Input::Grey, |_| (0, 0)),
    published!("is-cycle-by-degrees", Input::Grey, |_| (0, 0)),
    published!("is-tree", Input::Grey, |_| (0, 0)),
    published!("is-binary-dag", Input::Grey, |_| (0, 0)),
    published!("is-connected", Input::Grey, |_| (0, 0)),
    published!("2-colouring", Input::GreyConnected, |_| (0, 0)),
    published!("topological-sorting", Input::GreyConnected, |nodes| (1, 2 * nodes)),
    published!("minimum-spanning-tree", Input::Weighted, |_| (2, 0)),
];

/// The published program of that name.
pub fn published(name: &str) -> Option<&'static Published> {
    PROGRAMS.iter().find(|program| program.name == name)
}

/// A published program's run on one host: what a run is lent, but the program.
#[derive(Clone, Debug, PartialEq, Eq)]
pub struct ProgramRun {
    pub program: &'static str,
    pub host_name: String,
    pub nodes: Vec<u8>,
    pub edges: Vec<u8>,
    pub fuel: u32,
    pub records: u16,
    /// The answer where the run is meant to end for lack of fuel or room, none where it is meant to finish.
    pub runs_out: Option<u32>,
}

impl Published {
    /// The run on a graph, which gets the marks that the program expects, with ample fuel and journal.
    pub fn run_on(&self, host_name: impl Into<String>, graph: &Graph) -> ProgramRun {
        let host = match self.input {
            Input::Unmarked | Input::Weighted => graph.clone(),
            Input::Grey | Input::GreyConnected => graph.grey(),
        };
        let (free_nodes, free_edges) = (self.room)(host.nodes.len());
        self.run_on_tables(host_name, host.node_table(free_nodes), host.edge_table(free_edges))
    }

    /// The run on tables, with ample fuel and journal.
    pub fn run_on_tables(&self, host_name: impl Into<String>, nodes: Vec<u8>, edges: Vec<u8>) -> ProgramRun {
        ProgramRun {
            program: self.name,
            host_name: host_name.into(),
            nodes,
            edges,
            fuel: MOST_FUEL,
            records: LAYOUT.most_records as u16,
            runs_out: None,
        }
    }
}

/// Every published program on every one of its hosts, in a fixed order.
pub fn program_runs() -> Vec<ProgramRun> {
    [
        hosts::transitive_closure(),
        hosts::is_discrete(),
        hosts::is_cycle(),
        hosts::is_cycle_by_degrees(),
        hosts::is_tree(),
        hosts::is_binary_dag(),
        hosts::is_connected(),
        hosts::two_colouring(),
        hosts::topological_sorting(),
        hosts::minimum_spanning_tree(),
    ]
    .into_iter()
    .flat_map(|runs| runs.listed)
    .collect()
}

/// Every published program on every one of its hosts, as runner images in the same order.
pub fn program_images() -> Vec<Vec<u8>> {
    let images = PROGRAMS.map(|program| (program.name, encode::program(&assembled(&program))));
    let image_of = |name: &str| images.iter().find(|(program, _)| *program == name).expect("the program is published");
    let image = |run: ProgramRun| run.runner_image(&image_of(run.program).1);
    program_runs().into_iter().map(image).collect()
}

/// The tree of a published program.
pub fn assembled(program: &Published) -> Program {
    let file_name = format!("{0}/{0}.gp2", program.name);
    text::assemble_program(&file_name, program.source).unwrap_or_else(|complaint| panic!("{complaint}"))
}

impl ProgramRun {
    /// The runner image of this run of a program with that image.
    pub fn runner_image(&self, program: &[u8]) -> Vec<u8> {
        encode::runner_input(&RunnerInput {
            nodes: self.nodes.clone(),
            edges: self.edges.clone(),
            records: self.records,
            fuel: self.fuel,
            program: program.to_vec(),
        })
    }
}
