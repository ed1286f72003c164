//! The calls import and export on byte vectors, at a layout.

use crate::answer;
use crate::host::Host;
use crate::layout::Layout;

use super::{read, written};

/// What an import is given: a text, and the tables that the graph goes to.
#[derive(Clone, Debug, PartialEq, Eq, PartialOrd, Ord)]
pub struct ImportCall {
    pub text: Vec<u8>,
    pub nodes: Vec<u8>,
    pub edges: Vec<u8>,
}

/// The answer of an import and what the tables hold after it.
#[derive(Clone, Debug, PartialEq, Eq)]
pub struct Imported {
    pub answer: u32,
    pub nodes: Vec<u8>,
    pub edges: Vec<u8>,
}

impl ImportCall {
    pub fn outcome(&self, layout: &Layout) -> Imported {
        match self.checked(layout) {
            Ok(host) => Imported { answer: answer::RESULT, nodes: host.node_table(layout), edges: host.edge_table(layout) },
            Err(answer) => Imported { answer, nodes: self.nodes.clone(), edges: self.edges.clone() },
        }
    }

    /// The graph in as many slots as the tables have, or the lowest number that applies: 10, 11, 22, 23 or 24.
    fn checked(&self, layout: &Layout) -> Result<Host, u32> {
        check_lengths(layout, &self.nodes, &self.edges)?;
        let mut host = read(layout, &self.text).map_err(|refusal| refusal.answer)?;
        let (nodes, edges) = (self.nodes.len() / layout.node_length(), self.edges.len() / layout.edge_length());
        if host.nodes.len() > nodes || host.edges.len() > edges {
            return Err(answer::TEXT_UNFIT);
        }
        host.nodes.resize(nodes, None);
        host.edges.resize(edges, None);
        Ok(host)
    }
}

/// What an export is given: the tables of a graph, and the buffer that its text goes to.
#[derive(Clone, Debug, PartialEq, Eq, PartialOrd, Ord)]
pub struct ExportCall {
    pub nodes: Vec<u8>,
    pub edges: Vec<u8>,
    pub buffer: Vec<u8>,
}

/// The answer of an export, the length of the text and what the buffer holds after it.
#[derive(Clone, Debug, PartialEq, Eq)]
pub struct Exported {
    pub answer: u32,
    pub length: usize,
    pub buffer: Vec<u8>,
}

impl ExportCall {
    pub fn outcome(&self, layout: &Layout) -> Exported {
        let mut buffer = self.buffer.clone();
        match self.checked(layout) {
            Err(answer) => Exported { answer, length: 0, buffer },
            Ok(text) if text.len() > buffer.len() => Exported { answer: answer::TEXT_ROOM, length: text.len(), buffer },
            Ok(text) => {
                buffer[..text.len()].copy_from_slice(text.as_bytes());
                Exported { answer: answer::RESULT, length: text.len(), buffer }
            }
        }
    }

    /// The text, or the lowest number that applies of 10, 11 and 15.
    fn checked(&self, layout: &Layout) -> Result<String, u32> {
        check_lengths(layout, &self.nodes, &self.edges)?;
        let host = Host::read(layout, &self.nodes, &self.edges).map_err(|_| answer::LAYOUT)?;
        Ok(written(&host))
    }
}

fn check_lengths(layout: &Layout, nodes: &[u8], edges: &[u8]) -> Result<(), u32> {
    if !layout.is_node_table(nodes.len()) {
        return Err(answer::NODE_TABLE);
    }
    match layout.is_edge_table(edges.len()) {
        true => Ok(()),
        false => Err(answer::EDGE_TABLE),
    }
}
