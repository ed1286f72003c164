//! An independent second interpreter for graph program images, and the tools around it.
//!
//! It shares nothing with the proved interpreter but document 01, and works by another method: an image is
//! decoded into a tree, placements are enumerated in order and tested rule by rule, and a graph is copied
//! where a change may have to be given back.
//!
//! No modules import each other in a ring. Those of the interpreter rest on the ones before them: `layout`, `host`,
//! `journal`, `matching`, `applying`, `commands`, `calls`, `listing`, `carrying`, `text_graph`. What runs exercise is
//! counted from outside, by an `observer`.

pub mod build;
pub mod encode;
pub mod tree;

// The interpreter.
pub mod answer;
pub mod applying;
pub mod calls;
pub mod carrying;
pub mod commands;
pub mod decode;
pub mod depth;
pub mod host;
pub mod journal;
pub mod layout;
pub mod listing;
pub mod matching;
pub mod observer;
pub mod placement;
pub mod references;
pub mod text_graph;

// The text tools.
pub mod old_form;
pub mod text;

// Inputs made by a seeded generator.
pub mod corpus;
pub mod exercised;
pub mod families;
pub mod random;
pub mod refusals;
pub mod stored;
