//! Reading an image of either kind, with the place and the reason where it can't be read.

use super::offsets::{offset_of_command, offset_of_rule};
use crate::answer;
use crate::calls::MOST_FUEL;
use crate::encode::RunnerInput;
use crate::host::Host;
use crate::layout::{Core, Layout};
use crate::listing::{INPUT_BYTES, INPUT_RECORDS};
use crate::tree::{self, Command, Program};
use crate::{decode, depth, old_form, placement, references};
use std::fmt;

/// Where reading an image stopped, and why.
#[derive(Clone, Debug, PartialEq, Eq)]
pub struct Fault {
    /// Offset in the image.
    pub at: usize,
    /// The field that was being read.
    pub field: String,
    pub expected: String,
    /// The number that a run answers, or none where the runner refuses its input.
    pub answer: Option<u32>,
}

impl fmt::Display for Fault {
    fn fmt(&self, out: &mut fmt::Formatter) -> fmt::Result {
        write!(out, "{}; ", self.place_and_reason())?;
        match self.answer {
            Some(number) => write!(out, "a run answers {number}"),
            None => write!(out, "the runner prints `input refused`"),
        }
    }
}

impl Fault {
    /// Where and why, without what a run does then.
    pub fn place_and_reason(&self) -> String {
        format!("offset {}, {}: {}", self.at, self.field, self.expected)
    }
}

/// A runner image begins with the tag of its node table, which no program image does.
pub fn is_runner_image(bytes: &[u8]) -> bool {
    bytes.first() == Some(&0x01)
}

/// The runner's five fields, and where the payloads start.
#[derive(Clone, Debug)]
pub struct RunnerImage {
    pub input: RunnerInput,
    nodes_at: usize,
    edges_at: usize,
    records_at: usize,
    fuel_at: usize,
    pub program_at: usize,
}

/// The fields of a runner image, whatever tables and program hold.
pub fn runner_image(bytes: &[u8]) -> Result<RunnerImage, Fault> {
    if bytes.len() > INPUT_BYTES {
        return Err(input_refused(
            INPUT_BYTES,
            "runner image",
            "expected at most 65,536 bytes",
        ));
    }
    let mut fields = Fields { bytes, at: 0 };
    let (nodes_at, nodes) = fields.next(0x01, "node table")?;
    let (edges_at, edges) = fields.next(0x02, "edge table")?;
    let (records_at, records) = fields.next(0x03, "journal records")?;
    let (fuel_at, fuel) = fields.next(0x04, "fuel")?;
    let (program_at, program) = fields.next(0x05, "program")?;
    if fields.at < bytes.len() {
        return Err(input_refused(
            fields.at,
            "runner image",
            "expected nothing behind the program",
        ));
    }
    let records = records_number(records_at, records)?;
    let fuel = <[u8; 4]>::try_from(fuel)
        .map_err(|_| input_refused(fuel_at, "fuel", "expected four bytes"))?;
    let input = RunnerInput {
        nodes: nodes.to_vec(),
        edges: edges.to_vec(),
        records,
        fuel: u32::from_be_bytes(fuel),
        program: program.to_vec(),
    };
    Ok(RunnerImage {
        input,
        nodes_at,
        edges_at,
        records_at,
        fuel_at,
        program_at,
    })
}

fn records_number(at: usize, payload: &[u8]) -> Result<u16, Fault> {
    let bytes = <[u8; 2]>::try_from(payload)
        .map_err(|_| input_refused(at, "journal records", "expected two bytes"))?;
    let records = u16::from_be_bytes(bytes);
    if records > INPUT_RECORDS {
        let expected = expected_records(INPUT_RECORDS.into());
        return Err(input_refused(at, "journal records", &expected));
    }
    Ok(records)
}

fn expected_records(most: usize) -> String {
    format!("expected at most {} records", grouped(most))
}

/// A number below a million as a reader expects it.
pub fn grouped(number: usize) -> String {
    match number / 1000 {
        0 => number.to_string(),
        thousands => format!("{thousands},{:03}", number % 1000),
    }
}

fn input_refused(at: usize, field: &str, expected: &str) -> Fault {
    Fault {
        at,
        field: field.to_string(),
        expected: expected.to_string(),
        answer: None,
    }
}

struct Fields<'a> {
    bytes: &'a [u8],
    at: usize,
}

impl<'a> Fields<'a> {
    /// The next field's payload and where it starts.
    fn next(&mut self, tag: u8, words: &str) -> Result<(usize, &'a [u8]), Fault> {
        let rest = &self.bytes[self.at..];
        if rest.first() != Some(&tag) {
            let expected = format!("expected a field with tag {tag:#04x}");
            return Err(input_refused(self.at, words, &expected));
        }
        let Some((head, rest)) = rest.split_at_checked(3) else {
            let expected = "expected the two bytes of a length";
            return Err(input_refused(self.at + 1, words, expected));
        };
        let start = self.at + head.len();
        let length = usize::from(u16::from_be_bytes([head[1], head[2]]));
        let Some(payload) = rest.get(..length) else {
            let expected = format!("expected a payload of {length} bytes, found {}", rest.len());
            return Err(input_refused(start, words, &expected));
        };
        self.at = start + length;
        Ok((start, payload))
    }
}

impl RunnerImage {
    /// Host and program at a core, or the fault with the lowest number.
    pub fn contents(&self, core: Core) -> Result<(Host, Program), Fault> {
        let lengths = self.check_table_lengths(core.layout());
        lengths.map_err(|fault| self.of_other_tables(core, fault))?;
        self.check_records(core.layout())?;
        if self.input.fuel > MOST_FUEL {
            let expected = format!("expected at most {MOST_FUEL}, found {}", self.input.fuel);
            return Err(fault(self.fuel_at, "fuel", expected, answer::FUEL));
        }
        check_image_length(&self.input.program, self.program_at)?;
        let host = self.host(core)?;
        Ok((host, program(&self.input.program, self.program_at)?))
    }

    /// The host graph of the tables at a core, whatever the program holds.
    pub fn host(&self, core: Core) -> Result<Host, Fault> {
        let host = self.host_at(core.layout());
        host.map_err(|fault| self.of_other_tables(core, fault))
    }

    /// The journal has no more records than there may be.
    pub fn check_records(&self, layout: &Layout) -> Result<(), Fault> {
        if usize::from(self.input.records) <= layout.most_records {
            return Ok(());
        }
        let expected = format!("{}, found {}", expected_records(layout.most_records), self.input.records);
        Err(fault(self.records_at, "journal records", expected, answer::JOURNAL_TABLE))
    }

    /// The host graph of the tables read at a layout.
    pub fn host_at(&self, layout: &Layout) -> Result<Host, Fault> {
        self.check_table_lengths(layout)?;
        let (nodes, edges) = (&self.input.nodes, &self.input.edges);
        for (number, slot) in nodes.chunks(layout.node_length()).enumerate() {
            let at = self.nodes_at + number * slot.len();
            Host::read(layout, slot, &[])
                .map_err(|reason| broken_slot(at, "node", number, &reason))?;
        }
        for (number, slot) in edges.chunks(layout.edge_length()).enumerate() {
            let at = self.edges_at + number * slot.len();
            Host::read(layout, nodes, slot)
                .map_err(|reason| broken_slot(at, "edge", number, &reason))?;
        }
        Host::read(layout, nodes, edges)
            .map_err(|reason| fault(self.nodes_at, "host tables", reason, answer::LAYOUT))
    }

    fn check_table_lengths(&self, layout: &Layout) -> Result<(), Fault> {
        let (nodes, edges) = (self.input.nodes.len(), self.input.edges.len());
        if !layout.is_node_table(nodes) {
            let expected = expected_slots(layout.most_nodes, layout.node_length(), nodes);
            let number = answer::NODE_TABLE;
            return Err(fault(self.nodes_at, "node table", expected, number));
        }
        if !layout.is_edge_table(edges) {
            let expected = expected_slots(layout.most_edges, layout.edge_length(), edges);
            let number = answer::EDGE_TABLE;
            return Err(fault(self.edges_at, "edge table", expected, number));
        }
        Ok(())
    }

    /// The fault of a host at a core, with the remedy where its tables are others.
    fn of_other_tables(&self, core: Core, fault: Fault) -> Fault {
        match self.other_tables(core) {
            Some(remedy) => Fault {
                expected: remedy.to_string(),
                ..fault
            },
            None => fault,
        }
    }

    /// What is said of tables that break a core's layout and are others: old ones, or the other core's with a live node.
    pub fn other_tables(&self, core: Core) -> Option<&'static str> {
        let keeps = |layout: &Layout| self.host_at(layout).is_ok();
        let lives = |layout: &Layout| self.host_at(layout).is_ok_and(|host| host.live_nodes().next().is_some());
        match core {
            Core::Wide if keeps(&Layout::FOUR) => Some(IN_OLD_LAYOUT),
            Core::Wide if lives(&Layout::SMALL) => Some(OF_SMALL_CORE),
            Core::Small if lives(&Layout::BASE) => Some(OF_WIDE_CORE),
            _ => None,
        }
    }
}

/// What is said of tables that can be carried over.
pub const IN_OLD_LAYOUT: &str = "\
    tables of the old layout, in which labels have at most four atoms; \
    `gp2 renew OLD -o NEW` carries them over";

/// What is said of tables of the core that was not asked for.
const OF_SMALL_CORE: &str = "tables of the small core, expected --core small";
const OF_WIDE_CORE: &str = "tables of the wide core, expected no --core small";

fn expected_slots(most: usize, length: usize, found: usize) -> String {
    let most = grouped(most);
    format!("expected 0 to {most} slots of {length} bytes, found {found} bytes")
}

fn fault(at: usize, field: &str, expected: impl Into<String>, answer: u32) -> Fault {
    Fault {
        at,
        field: field.to_string(),
        expected: expected.into(),
        answer: Some(answer),
    }
}

/// The fault of one slot, whose reason was found with the slot alone in its table.
fn broken_slot(at: usize, kind: &str, number: usize, reason: &str) -> Fault {
    let reason = reason.split_once(": ").map_or(reason, |(_, reason)| reason);
    fault(at, &format!("{kind} slot {number}"), reason, answer::LAYOUT)
}

/// The tree of a program image that starts at offset `start`.
pub fn program(image: &[u8], start: usize) -> Result<Program, Fault> {
    check_image_length(image, start)?;
    let program = decode::program(image).map_err(|damage| {
        let expected = match old_form::program(image) {
            Ok(_) => IN_OLD_FORM.to_string(),
            Err(_) => format!("expected {}", damage.expected),
        };
        fault(start + damage.at, &damage.field, expected, answer::FORM)
    })?;
    check_references(&program, start)?;
    check_placement(&program, start)?;
    check_depth(&program, start)?;
    Ok(program)
}

/// What is said of an image that can be renewed.
pub const IN_OLD_FORM: &str = "\
    an image of the old form, in which if (0x52) and try (0x53) are commands of their own; \
    `gp2 renew OLD -o NEW` rewrites it";

fn check_image_length(image: &[u8], start: usize) -> Result<(), Fault> {
    let (most, found) = (tree::limit::IMAGE_BYTES, image.len());
    if found > most {
        let expected = format!("expected at most {most} bytes, found {found}");
        return Err(fault(start + most, "program", expected, answer::IMAGE));
    }
    Ok(())
}

fn check_references(program: &Program, start: usize) -> Result<(), Fault> {
    let Err(reason) = references::check(program) else {
        return Ok(());
    };
    let broken = program
        .rules
        .iter()
        .position(|rule| references::check_rule(rule).is_err());
    if let Some(number) = broken {
        let at = start + offset_of_rule(program, number);
        return Err(fault(at, "references", reason, answer::REFERENCES));
    }
    let (rules, procedures) = (program.rules.len(), program.procedures.len());
    let names_too_much = |command: &Command, _| {
        references::named_rules_exist(command, rules).is_err()
            || references::named_procedure_exists(command, procedures).is_err()
    };
    let at = start + offset_of_command(program, &names_too_much);
    Err(fault(at, "references", reason, answer::REFERENCES))
}

fn check_placement(program: &Program, start: usize) -> Result<(), Fault> {
    if placement::check(program) {
        return Ok(());
    }
    let at = start
        + offset_of_command(program, &|command, in_body| {
            *command == Command::Break && !in_body
        });
    let placed = |body: &Command| placement::breaks_are_placed(body, false);
    let around = match program.procedures.iter().all(placed) {
        true => "a loop",
        false => "a loop of the same procedure",
    };
    let expected = format!("expected {around} around the break with no guard of if or try between");
    Err(fault(at, "placement", expected, answer::PLACEMENT))
}

/// The call at fault is found by where it lies in memory: others may be equal to it.
fn check_depth(program: &Program, start: usize) -> Result<(), Fault> {
    let Err(depth::Fault { call, reason }) = depth::check(program) else {
        return Ok(());
    };
    let at = start + offset_of_command(program, &|command, _| std::ptr::eq(command, call));
    Err(fault(at, "depth", reason, answer::DEPTH))
}
