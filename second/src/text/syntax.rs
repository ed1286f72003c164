//! What a source text says, as it was written: names are not looked up and limits are not checked yet.

use super::complaint::Place;
use crate::tree::{Mode, VariableType};

#[derive(Clone, Debug, PartialEq, Eq)]
pub struct Name {
    pub text: String,
    pub place: Place,
}

/// A whole program text.
#[derive(Clone, Debug)]
pub struct ProgramText {
    pub declarations: Vec<Declaration>,
    pub main: MainText,
    pub host: Option<HostText>,
}

#[derive(Clone, Debug)]
pub struct MainText {
    pub place: Place,
    pub body: CommandText,
}

#[derive(Clone, Debug)]
pub enum Declaration {
    Rule(Box<RuleText>),
    Procedure(ProcedureText),
}

#[derive(Clone, Debug)]
pub struct ProcedureText {
    pub name: Name,
    pub locals: Vec<Declaration>,
    pub body: CommandText,
}

#[derive(Clone, Debug)]
pub struct CommandText {
    pub place: Place,
    pub kind: CommandKind,
}

#[derive(Clone, Debug)]
pub enum CommandKind {
    /// A rule or procedure by its name.
    Call(String),
    /// Rule names in braces.
    RuleSet(Vec<Name>),
    Sequence(Vec<CommandText>),
    If(Box<CommandText>, Box<CommandText>, Box<CommandText>),
    Try(Box<CommandText>, Box<CommandText>, Box<CommandText>),
    Loop(Box<CommandText>),
    Skip,
    Fail,
    Break,
}

#[derive(Clone, Debug)]
pub struct RuleText {
    pub name: Name,
    pub variables: Vec<VariableText>,
    pub left: GraphText,
    pub right: GraphText,
    pub interface: Vec<Name>,
    pub condition: Option<ConditionText>,
    /// What stands behind `roots =`.
    pub mode: Option<Mode>,
}

#[derive(Clone, Debug)]
pub struct VariableText {
    pub name: Name,
    pub kind: VariableType,
}

#[derive(Clone, Debug)]
pub struct GraphText {
    pub nodes: Vec<NodeText>,
    pub edges: Vec<EdgeText>,
}

#[derive(Clone, Debug)]
pub struct NodeText {
    pub identifier: Name,
    pub root: bool,
    pub label: LabelText,
}

#[derive(Clone, Debug)]
pub struct EdgeText {
    pub identifier: Name,
    pub bidirectional: bool,
    pub source: Name,
    pub target: Name,
    pub label: LabelText,
}

#[derive(Clone, Debug)]
pub struct LabelText {
    pub elements: Vec<ElementText>,
    pub mark: u8,
    /// Where the mark's word stands, or where the label starts if there is none.
    pub mark_place: Place,
}

#[derive(Clone, Debug)]
pub struct ElementText {
    pub place: Place,
    pub kind: ElementKind,
}

#[derive(Clone, Debug)]
pub enum ElementKind {
    Single(OperandText),
    Sum(OperandText, OperandText),
    Difference(OperandText, OperandText),
}

#[derive(Clone, Debug)]
pub struct OperandText {
    pub place: Place,
    pub kind: OperandKind,
}

#[derive(Clone, Debug)]
pub enum OperandKind {
    Number(i32),
    Variable(String),
    Degree(Direction, Name),
}

#[derive(Clone, Copy, Debug, PartialEq, Eq)]
pub enum Direction {
    In,
    Out,
}

#[derive(Clone, Debug)]
pub struct ConditionText {
    /// For `and` and `or`, where the first such word stands.
    pub place: Place,
    pub kind: ConditionKind,
}

#[derive(Clone, Debug)]
pub enum ConditionKind {
    Edge(Name, Name),
    Relation(Comparison, Box<[ElementText; 2]>),
    Not(Box<ConditionText>),
    And(Vec<ConditionText>),
    Or(Vec<ConditionText>),
}

#[derive(Clone, Copy, Debug, PartialEq, Eq)]
pub enum Comparison {
    Equal,
    NotEqual,
    Less,
    AtMost,
    Greater,
    AtLeast,
}

/// A host graph as written; `None` stands for a slot that is kept free.
#[derive(Clone, Debug)]
pub struct HostGraphText {
    pub nodes: Vec<Option<NodeText>>,
    pub edges: Vec<Option<EdgeText>>,
}

/// The host section behind a program.
#[derive(Clone, Debug)]
pub struct HostText {
    pub place: Place,
    pub numbers: Vec<HostNumber>,
    pub graph: HostGraphText,
}

/// One of the numbers of a host section, as `fuel 10`.
#[derive(Clone, Debug)]
pub struct HostNumber {
    pub name: Name,
    pub value: String,
    pub value_place: Place,
}
