//! The answers of document 01's table. 7 is none: it was an application that left a live edge on a free node, which never comes.

pub const RESULT: u32 = 0;
pub const FAIL: u32 = 1;
pub const OUT_OF_FUEL: u32 = 2;
pub const NO_ROOM_NODES: u32 = 3;
pub const NO_ROOM_EDGES: u32 = 4;
pub const NO_ROOM_JOURNAL: u32 = 5;
pub const LABEL: u32 = 6;
pub const REPORT: u32 = 9;
pub const NODE_TABLE: u32 = 10;
pub const EDGE_TABLE: u32 = 11;
pub const JOURNAL_TABLE: u32 = 12;
pub const FUEL: u32 = 13;
pub const IMAGE: u32 = 14;
pub const LAYOUT: u32 = 15;
pub const FORM: u32 = 16;
pub const REFERENCES: u32 = 17;
pub const PLACEMENT: u32 = 18;
pub const DEPTH: u32 = 19;
pub const UNDO: u32 = 20;
pub const TEXT_GRAMMAR: u32 = 22;
pub const TEXT_NAMES: u32 = 23;
pub const TEXT_UNFIT: u32 = 24;
pub const TEXT_ROOM: u32 = 25;
pub const CARRIED_LABEL: u32 = 26;
pub const UNFIT_HOST: u32 = 29;
