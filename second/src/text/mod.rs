//! The text tools: the notation of GP 2 programs and host graphs, read and written.
//!
//! A text is cut into tokens (`lexer`), read as it is written (`parse_*` into `syntax`), and put in terms of
//! the image (`scopes`, `keeping`, `lower_*`, `variables`, `bidirectional`, `host_graph`). The other way, `image` reads bytes and
//! `print_*` and `dot` write text. `renew` and `packing` make bytes of bytes. Tables are those of the core that is asked for.

mod arguments;
mod assemble;
mod bidirectional;
mod complaint;
mod cursor;
mod dot;
mod files;
mod host_graph;
mod image;
mod keeping;
mod lexer;
mod lower_commands;
mod lower_rules;
mod lower_tests;
mod offsets;
mod packing;
mod parse_commands;
mod parse_conditions;
mod parse_host;
mod parse_labels;
mod parse_program;
mod parse_rules;
mod print_commands;
mod print_host;
mod print_program;
mod renew;
mod scopes;
mod sizes;
mod syntax;
mod tools;
mod variables;

pub use arguments::{task, Task};
pub use assemble::{
    assemble, assemble_as, assemble_program, read_graph, runner_input, Assembly, HostSection,
};
pub use complaint::{Complaint, Place};
pub use dot::drawing;
pub use host_graph::{HostEdge, HostGraph, HostNode};
pub use image::{grouped, Fault};
pub use keeping::Procedures;
pub use packing::{pack, unpack};
pub use print_host::host_graph_text;
pub use print_program::program_text;
pub use renew::{renew, HostRenewal, Renewed};
pub use sizes::Sizes;
pub use tools::{disassemble, draw, draw_after, image_graph, perform};
