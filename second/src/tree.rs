//! The tree that a program image stands for: rules, procedures and one command.
//!
//! Every type follows a bullet of the section "The program image" of the scope document. A tree can hold
//! what *form* allows, so references may still dangle, a break may still stand in a wrong place, and procedures may
//! still call each other in a ring.

/// Mark numbers, as tables and images write them.
pub mod mark {
    pub const NONE: u8 = 0;
    pub const RED: u8 = 1;
    pub const GREEN: u8 = 2;
    pub const BLUE: u8 = 3;
    /// On nodes only.
    pub const GREY: u8 = 4;
    /// On edges only.
    pub const DASHED: u8 = 5;
    /// In rules only.
    pub const ANY: u8 = 6;

    /// The word for a mark, indexed by its number.
    pub const NAMES: [&str; 7] = ["none", "red", "green", "blue", "grey", "dashed", "any"];
}

/// The limits of an image.
pub mod limit {
    pub const IMAGE_BYTES: usize = 8192;
    pub const RULES: usize = 32;
    pub const PROCEDURES: usize = 16;
    pub const VARIABLES: usize = 6;
    pub const NODES: usize = 6;
    pub const EDGES: usize = 6;
    pub const ELEMENTS: usize = 8;
    pub const TESTS: usize = 4;
    pub const RULE_NUMBERS: usize = 8;
    pub const COMMANDS: usize = 16;
    pub const DEPTH: usize = 16;
}

#[derive(Clone, Debug, PartialEq, Eq)]
pub struct Program {
    pub rules: Vec<Rule>,
    /// The command of each procedure.
    pub procedures: Vec<Command>,
    pub main: Command,
}

impl Program {
    pub fn without_procedures(rules: Vec<Rule>, main: Command) -> Program {
        Program {
            rules,
            procedures: Vec::new(),
            main,
        }
    }

    /// The commands of the procedures in their order, then the main command.
    pub fn commands(&self) -> impl Iterator<Item = &Command> {
        self.procedures.iter().chain([&self.main])
    }

    /// The same, to be changed in place.
    pub fn commands_mut(&mut self) -> impl Iterator<Item = &mut Command> {
        self.procedures.iter_mut().chain([&mut self.main])
    }
}

/// The default rule has nothing on either side.
#[derive(Clone, Debug, PartialEq, Eq, Default)]
pub struct Rule {
    pub variables: Vec<VariableType>,
    pub left: RuleGraph,
    pub right: RuleGraph,
    /// Nodes 0 to interface - 1 are the same on both sides.
    pub interface: u8,
    pub tests: Vec<Test>,
    /// What the sixth field says, where there is one. A rule without it is reflecting.
    pub mode: Option<Mode>,
}

impl Rule {
    pub fn is_preserving(&self) -> bool {
        self.mode == Some(Mode::Preserving)
    }
}

/// What a rule asks of roots.
#[derive(Clone, Copy, Debug, PartialEq, Eq)]
pub enum Mode {
    /// Root flags are equal both ways.
    Reflecting,
    /// An unrooted left node takes a root too, which stays one where the right side leaves the node unrooted.
    Preserving,
}

#[derive(Clone, Copy, Debug, PartialEq, Eq)]
pub enum VariableType {
    Int,
    List,
}

#[derive(Clone, Debug, PartialEq, Eq, Default)]
pub struct RuleGraph {
    pub nodes: Vec<RuleNode>,
    pub edges: Vec<RuleEdge>,
}

#[derive(Clone, Debug, PartialEq, Eq)]
pub struct RuleNode {
    pub mark: u8,
    pub root: bool,
    pub label: Vec<Element>,
}

#[derive(Clone, Debug, PartialEq, Eq)]
pub struct RuleEdge {
    pub mark: u8,
    pub source: u8,
    pub target: u8,
    pub label: Vec<Element>,
}

#[derive(Clone, Copy, Debug, PartialEq, Eq)]
pub enum Element {
    Constant(i32),
    Variable(u8),
    Sum(Operand, Operand),
    Difference(Operand, Operand),
}

#[derive(Clone, Copy, Debug, PartialEq, Eq)]
pub enum Operand {
    Constant(i32),
    Variable(u8),
}

#[derive(Clone, Copy, Debug, PartialEq, Eq)]
pub struct Test {
    pub negated: bool,
    pub kind: TestKind,
}

#[derive(Clone, Copy, Debug, PartialEq, Eq)]
pub enum TestKind {
    Edge(u8, u8),
    InDegree(u8, u16),
    OutDegree(u8, u16),
    Relation(Relation, Operand, Operand),
}

#[derive(Clone, Copy, Debug, PartialEq, Eq)]
pub enum Relation {
    Equal,
    Less,
}

#[derive(Clone, Debug, PartialEq, Eq)]
pub enum Command {
    RuleSet(Vec<u8>),
    Sequence(Vec<Command>),
    /// An if or a try.
    Guarded {
        /// Whether a successful guard's changes stay: they do in a try, in an if they are undone.
        keep: bool,
        guard: Box<Command>,
        then: Box<Command>,
        other: Box<Command>,
    },
    Loop(Box<Command>),
    Skip,
    Fail,
    Break,
    /// A call of the procedure of this number.
    Procedure(u8),
}

impl Command {
    /// The commands directly inside of it, in their order.
    pub fn parts(&self) -> Vec<&Command> {
        match self {
            Command::Sequence(parts) => parts.iter().collect(),
            Command::Guarded {
                guard, then, other, ..
            } => vec![guard, then, other],
            Command::Loop(body) => vec![body],
            Command::RuleSet(_)
            | Command::Skip
            | Command::Fail
            | Command::Break
            | Command::Procedure(_) => Vec::new(),
        }
    }

    /// The same, to be changed in place.
    pub fn parts_mut(&mut self) -> Vec<&mut Command> {
        match self {
            Command::Sequence(parts) => parts.iter_mut().collect(),
            Command::Guarded {
                guard, then, other, ..
            } => vec![guard, then, other],
            Command::Loop(body) => vec![body],
            Command::RuleSet(_)
            | Command::Skip
            | Command::Fail
            | Command::Break
            | Command::Procedure(_) => Vec::new(),
        }
    }

    /// How many commands it has, itself included.
    pub fn size(&self) -> usize {
        1 + self.parts().into_iter().map(Command::size).sum::<usize>()
    }

    /// How deep the deepest command in it lies, where it has depth 1 itself and calls are not looked into.
    pub fn depth(&self) -> usize {
        1 + self
            .parts()
            .into_iter()
            .map(Command::depth)
            .max()
            .unwrap_or(0)
    }

    /// The command of a number below the size, to be changed in place: each comes before those inside of it.
    pub fn at_mut(&mut self, number: usize) -> &mut Command {
        match number {
            0 => self,
            _ => command_at_mut(self.parts_mut(), number - 1),
        }
    }
}

/// The same in a row of commands.
pub fn command_at_mut<'a>(
    commands: impl IntoIterator<Item = &'a mut Command>,
    number: usize,
) -> &'a mut Command {
    let mut behind = number;
    for command in commands {
        let inside = command.size();
        if behind < inside {
            return command.at_mut(behind);
        }
        behind -= inside;
    }
    panic!("no command has the number {number}")
}
