//! Reading a program image into its tree: the *form* of document 01, but with if and try as one guarded command, with a
//! mode that a rule may have, with procedures and calls of them, and with every limit. An image of any length is read; that it has at most 8,192 bytes is asked by the call.

use crate::build;
use crate::tree::*;

/// Where an image leaves the form.
#[derive(Clone, Debug, PartialEq, Eq)]
pub struct Damage {
    /// Offset in the image.
    pub at: usize,
    /// The field that was being read, in words.
    pub field: String,
    /// What was expected there.
    pub expected: String,
}

pub type Read<T> = Result<T, Damage>;

/// What a form of images says of procedures and of guarded commands, in which alone forms differ.
pub struct Form {
    /// The commands that there are, in words.
    pub commands: &'static str,
    /// Whether there are procedures, and calls of them.
    pub procedures: bool,
    /// Whether a guarded command that stands next keeps a successful guard's changes, and a reader of its three commands.
    pub guarded: for<'a> fn(&mut Reader<'a>) -> Read<Option<(bool, Reader<'a>)>>,
}

const TODAY: Form = Form {
    commands: "a command: tag 0x50, 0x51, or 0x54 to 0x59",
    procedures: true,
    guarded,
};

/// The tree of an image.
pub fn program(image: &[u8]) -> Read<Program> {
    program_of(image, &TODAY)
}

/// The tree of an image of this form: 0 to 32 rules, 0 to 16 procedures, one command, nothing behind it.
pub fn program_of(image: &[u8], form: &Form) -> Read<Program> {
    let mut reader = Reader::whole(image);
    let is_rule = |reader: &Reader| reader.tag() == Some(0x10);
    let most = "at most 32 rules, then a command";
    let rules = reader.items(is_rule, limit::RULES, most, rule)?;
    let is_procedure = |reader: &Reader| form.procedures && reader.tag() == Some(0x17);
    let most = "at most 16 procedures, then a command";
    let procedures = reader.items(is_procedure, limit::PROCEDURES, most, |reader| {
        procedure(reader, form)
    })?;
    let main = command(&mut reader, 1, form)?;
    reader.ended("nothing behind the command")?;
    Ok(Program {
        rules,
        procedures,
        main,
    })
}

fn procedure(reader: &mut Reader, form: &Form) -> Read<Command> {
    let mut parts = reader.field(0x17, "procedure")?;
    one_command(&mut parts, 1, form)
}

/// The whole of a payload: one command of this depth.
fn one_command(parts: &mut Reader, depth: usize, form: &Form) -> Read<Command> {
    let command = command(parts, depth, form)?;
    parts.ended("one command and nothing more")?;
    Ok(command)
}

fn rule(reader: &mut Reader) -> Read<Rule> {
    let mut parts = reader.field(0x10, "rule")?;
    let variables = variables(&mut parts)?;
    let left = graph(&mut parts, 0x12, "left graph")?;
    let right = graph(&mut parts, 0x13, "right graph")?;
    let interface = interface(&mut parts)?;
    let tests = tests(&mut parts)?;
    let mode = mode(&mut parts)?;
    parts.ended(match mode {
        None => "the end of the rule behind its five fields, or a sixth, the mode (0x16)",
        Some(_) => "the end of the rule behind its mode",
    })?;
    Ok(Rule {
        variables,
        left,
        right,
        interface,
        tests,
        mode,
    })
}

fn variables(reader: &mut Reader) -> Read<Vec<VariableType>> {
    let mut types = reader.field(0x11, "variable types")?;
    types.rest(limit::VARIABLES, "at most 6 variable types", variable_type)
}

fn variable_type(reader: &mut Reader) -> Read<VariableType> {
    const EXPECTED: &str = "a variable type: 1 int or 2 list";
    match reader.byte_in(1..=2, EXPECTED)? {
        1 => Ok(VariableType::Int),
        _ => Ok(VariableType::List),
    }
}

fn graph(reader: &mut Reader, tag: u8, words: &'static str) -> Read<RuleGraph> {
    let mut items = reader.field(tag, words)?;
    let is_node = |items: &Reader| items.tag() == Some(0x20);
    let is_edge = |items: &Reader| items.tag() == Some(0x21);
    let nodes = items.items(is_node, limit::NODES, "at most 6 nodes, then edges", node)?;
    let edges = items.items(is_edge, limit::EDGES, "at most 6 edges", edge)?;
    items.ended("nodes (0x20), then edges (0x21), then the end of the graph")?;
    Ok(RuleGraph { nodes, edges })
}

fn node(reader: &mut Reader) -> Read<RuleNode> {
    let mut parts = reader.field(0x20, "node")?;
    let mark = parts.byte_among(&[0, 1, 2, 3, 4, 6], "a node mark: 0 to 4, or 6 for any")?;
    let root = parts.byte_in(0..=1, "a root flag: 0 or 1")? == 1;
    let label = label(&mut parts)?;
    Ok(RuleNode { mark, root, label })
}

fn edge(reader: &mut Reader) -> Read<RuleEdge> {
    let mut parts = reader.field(0x21, "edge")?;
    let mark = parts.byte_among(&[0, 1, 2, 3, 5, 6], "an edge mark: 0 to 3, 5, or 6 for any")?;
    let source = parts.byte("the number of the source node")?;
    let target = parts.byte("the number of the target node")?;
    let label = label(&mut parts)?;
    Ok(RuleEdge {
        mark,
        source,
        target,
        label,
    })
}

/// What is expected where a label has more elements than there may be.
pub const MOST_ELEMENTS: &str = "at most 8 label elements";

/// The rest of a node or an edge: 0 to 8 elements.
fn label(reader: &mut Reader) -> Read<Vec<Element>> {
    reader.rest(limit::ELEMENTS, MOST_ELEMENTS, element)
}

fn element(reader: &mut Reader) -> Read<Element> {
    match reader.tag() {
        Some(0x30) => Ok(Element::Constant(constant(reader)?)),
        Some(0x31) => Ok(Element::Variable(variable(reader)?)),
        Some(0x32) => {
            let (a, b) = two_operands(reader, 0x32, "sum")?;
            Ok(Element::Sum(a, b))
        }
        Some(0x33) => {
            let (a, b) = two_operands(reader, 0x33, "difference")?;
            Ok(Element::Difference(a, b))
        }
        _ => Err(reader.damage("a label element: tag 0x30, 0x31, 0x32 or 0x33")),
    }
}

fn two_operands(reader: &mut Reader, tag: u8, words: &'static str) -> Read<(Operand, Operand)> {
    let mut parts = reader.field(tag, words)?;
    let first = operand(&mut parts)?;
    let second = operand(&mut parts)?;
    parts.ended("two operands and nothing more")?;
    Ok((first, second))
}

fn operand(reader: &mut Reader) -> Read<Operand> {
    match reader.tag() {
        Some(0x30) => Ok(Operand::Constant(constant(reader)?)),
        Some(0x31) => Ok(Operand::Variable(variable(reader)?)),
        _ => Err(reader.damage("an operand: tag 0x30 or 0x31")),
    }
}

fn constant(reader: &mut Reader) -> Read<i32> {
    let mut parts = reader.field(0x30, "constant")?;
    let bytes = parts.take(4, "the four bytes of a constant")?;
    parts.ended("four bytes and nothing more")?;
    Ok(i32::from_be_bytes([bytes[0], bytes[1], bytes[2], bytes[3]]))
}

fn variable(reader: &mut Reader) -> Read<u8> {
    let mut parts = reader.field(0x31, "variable")?;
    let number = parts.byte("the number of a variable")?;
    parts.ended("one byte and nothing more")?;
    Ok(number)
}

fn interface(reader: &mut Reader) -> Read<u8> {
    let mut parts = reader.field(0x14, "interface")?;
    let size = parts.byte("the size of the interface")?;
    parts.ended("one byte and nothing more")?;
    Ok(size)
}

fn tests(reader: &mut Reader) -> Read<Vec<Test>> {
    let mut fields = reader.field(0x15, "tests")?;
    fields.rest(limit::TESTS, "at most 4 tests", test)
}

/// The sixth field, if it stands there.
fn mode(reader: &mut Reader) -> Read<Option<Mode>> {
    if reader.tag() != Some(0x16) {
        return Ok(None);
    }
    let mut parts = reader.field(0x16, "mode")?;
    let mode = match parts.byte_in(0..=1, "a mode: 1 preserving or 0 reflecting")? {
        1 => Mode::Preserving,
        _ => Mode::Reflecting,
    };
    parts.ended("one byte and nothing more")?;
    Ok(Some(mode))
}

fn test(reader: &mut Reader) -> Read<Test> {
    match reader.tag() {
        Some(0x40) => edge_test(reader),
        Some(0x41) => degree_test(reader, 0x41, "in-degree test", TestKind::InDegree),
        Some(0x42) => degree_test(reader, 0x42, "out-degree test", TestKind::OutDegree),
        Some(0x43) => relation_test(reader),
        _ => Err(reader.damage("a test: tag 0x40, 0x41, 0x42 or 0x43")),
    }
}

fn edge_test(reader: &mut Reader) -> Read<Test> {
    let mut parts = reader.field(0x40, "edge test")?;
    let negated = negation(&mut parts)?;
    let a = parts.byte("the number of node a")?;
    let b = parts.byte("the number of node b")?;
    parts.ended("three bytes and nothing more")?;
    let kind = TestKind::Edge(a, b);
    Ok(Test { negated, kind })
}

fn degree_test(
    reader: &mut Reader,
    tag: u8,
    words: &'static str,
    kind: fn(u8, u16) -> TestKind,
) -> Read<Test> {
    let mut parts = reader.field(tag, words)?;
    let negated = negation(&mut parts)?;
    let node = parts.byte("the number of a node")?;
    let number = parts.take(2, "the two bytes of a degree")?;
    parts.ended("four bytes and nothing more")?;
    let kind = kind(node, u16::from_be_bytes([number[0], number[1]]));
    Ok(Test { negated, kind })
}

fn relation_test(reader: &mut Reader) -> Read<Test> {
    let mut parts = reader.field(0x43, "relation test")?;
    let negated = negation(&mut parts)?;
    let relation = match parts.byte_in(1..=2, "a relation: 1 equal or 2 less")? {
        1 => Relation::Equal,
        _ => Relation::Less,
    };
    let first = operand(&mut parts)?;
    let second = operand(&mut parts)?;
    parts.ended("two operands and nothing more")?;
    let kind = TestKind::Relation(relation, first, second);
    Ok(Test { negated, kind })
}

fn negation(reader: &mut Reader) -> Read<bool> {
    Ok(reader.byte_in(0..=1, "a negation: 0 or 1")? == 1)
}

fn command(reader: &mut Reader, depth: usize, form: &Form) -> Read<Command> {
    if depth > limit::DEPTH {
        return Err(reader.damage("commands of depth 16 at most"));
    }
    if let Some((keep, parts)) = (form.guarded)(reader)? {
        return guarded_command(keep, parts, depth, form);
    }
    match reader.tag() {
        Some(0x50) => rule_set(reader),
        Some(0x51) => sequence(reader, depth, form),
        Some(0x54) => loop_command(reader, depth, form),
        Some(0x55) => empty_command(reader, 0x55, "skip", Command::Skip),
        Some(0x56) => empty_command(reader, 0x56, "fail", Command::Fail),
        Some(0x57) => empty_command(reader, 0x57, "break", Command::Break),
        Some(0x58) if form.procedures => call(reader),
        _ => Err(reader.damage(form.commands)),
    }
}

fn rule_set(reader: &mut Reader) -> Read<Command> {
    let mut numbers = reader.field(0x50, "rule set")?;
    let mut set = vec![numbers.byte("1 to 8 rule numbers")?];
    let number = |numbers: &mut Reader| numbers.byte("a rule number");
    set.extend(numbers.rest(limit::RULE_NUMBERS - 1, "at most 8 rule numbers", number)?);
    Ok(Command::RuleSet(set))
}

fn sequence(reader: &mut Reader, depth: usize, form: &Form) -> Read<Command> {
    let mut parts = reader.field(0x51, "sequence")?;
    let part = |parts: &mut Reader| command(parts, depth + 1, form);
    let mut commands = vec![part(&mut parts)?];
    commands.extend(parts.rest(limit::COMMANDS - 1, "at most 16 commands", part)?);
    Ok(Command::Sequence(commands))
}

/// One byte, then the three commands.
fn guarded<'a>(reader: &mut Reader<'a>) -> Read<Option<(bool, Reader<'a>)>> {
    if reader.tag() != Some(0x59) {
        return Ok(None);
    }
    let mut parts = reader.field(0x59, "guarded command")?;
    let expected = "1 where a successful guard's changes stay, or 0";
    let keep = parts.byte_in(0..=1, expected)? == 1;
    Ok(Some((keep, parts)))
}

fn guarded_command(keep: bool, mut parts: Reader, depth: usize, form: &Form) -> Read<Command> {
    let guard = command(&mut parts, depth + 1, form)?;
    let then = command(&mut parts, depth + 1, form)?;
    let other = command(&mut parts, depth + 1, form)?;
    parts.ended("three commands and nothing more")?;
    Ok(build::guarded(keep, guard, then, other))
}

fn loop_command(reader: &mut Reader, depth: usize, form: &Form) -> Read<Command> {
    let mut parts = reader.field(0x54, "loop")?;
    let body = one_command(&mut parts, depth + 1, form)?;
    Ok(Command::Loop(Box::new(body)))
}

fn call(reader: &mut Reader) -> Read<Command> {
    let mut parts = reader.field(0x58, "call")?;
    let number = parts.byte("the number of a procedure")?;
    parts.ended("one byte and nothing more")?;
    Ok(Command::Procedure(number))
}

fn empty_command(
    reader: &mut Reader,
    tag: u8,
    words: &'static str,
    command: Command,
) -> Read<Command> {
    let payload = reader.field(tag, words)?;
    payload.ended("no payload")?;
    Ok(command)
}

/// A stretch of the image with a place in it, and the words for the field that it belongs to.
pub struct Reader<'a> {
    image: &'a [u8],
    at: usize,
    end: usize,
    words: &'static str,
}

impl<'a> Reader<'a> {
    fn whole(image: &'a [u8]) -> Reader<'a> {
        Reader {
            image,
            at: 0,
            end: image.len(),
            words: "program",
        }
    }

    fn damage(&self, expected: &str) -> Damage {
        Damage {
            at: self.at,
            field: self.words.to_string(),
            expected: expected.to_string(),
        }
    }

    fn at_end(&self) -> bool {
        self.at == self.end
    }

    /// The tag that stands next, if any byte does.
    pub fn tag(&self) -> Option<u8> {
        self.image[self.at..self.end].first().copied()
    }

    fn ended(&self, expected: &str) -> Read<()> {
        match self.at_end() {
            true => Ok(()),
            false => Err(self.damage(expected)),
        }
    }

    fn take(&mut self, count: usize, expected: &str) -> Read<&'a [u8]> {
        if self.end - self.at < count {
            return Err(self.damage(expected));
        }
        let taken = &self.image[self.at..self.at + count];
        self.at += count;
        Ok(taken)
    }

    fn byte(&mut self, expected: &str) -> Read<u8> {
        Ok(self.take(1, expected)?[0])
    }

    fn byte_in(&mut self, legal: std::ops::RangeInclusive<u8>, expected: &str) -> Read<u8> {
        match self.tag() {
            Some(byte) if legal.contains(&byte) => self.byte(expected),
            _ => Err(self.damage(expected)),
        }
    }

    fn byte_among(&mut self, legal: &[u8], expected: &str) -> Read<u8> {
        match self.tag() {
            Some(byte) if legal.contains(&byte) => self.byte(expected),
            _ => Err(self.damage(expected)),
        }
    }

    /// Items up to the end, at most so many.
    fn rest<T>(
        &mut self,
        most: usize,
        expected: &str,
        item: impl Fn(&mut Reader<'a>) -> Read<T>,
    ) -> Read<Vec<T>> {
        self.items(|reader| !reader.at_end(), most, expected, item)
    }

    /// Items while there are more, at most so many.
    fn items<T>(
        &mut self,
        more: impl Fn(&Reader<'a>) -> bool,
        most: usize,
        expected: &str,
        item: impl Fn(&mut Reader<'a>) -> Read<T>,
    ) -> Read<Vec<T>> {
        let mut items = Vec::new();
        while more(self) {
            if items.len() == most {
                return Err(self.damage(expected));
            }
            items.push(item(self)?);
        }
        Ok(items)
    }

    /// A reader of the payload of the field with this tag, which must stand next and end inside this
    /// stretch.
    pub fn field(&mut self, tag: u8, words: &'static str) -> Read<Reader<'a>> {
        if self.tag() != Some(tag) {
            return Err(self.damage(&format!("a field with tag {tag:#04x}, {words}")));
        }
        let mut inner = Reader { words, ..*self };
        inner.byte("a tag")?;
        let length = inner.take(2, "the two bytes of a length")?;
        let length = usize::from(u16::from_be_bytes([length[0], length[1]]));
        let start = inner.at;
        inner.take(length, &format!("a payload of {length} bytes"))?;
        self.at = inner.at;
        inner.end = inner.at;
        inner.at = start;
        Ok(inner)
    }
}
