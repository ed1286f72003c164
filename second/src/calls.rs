//! The two public calls, run and undo, on byte vectors: the order of the answers and what each leaves in
//! the buffers. Each is made at a layout; document 01's calls are those at the base layout.

use crate::answer;
use crate::commands::{Ending, Run, State};
use crate::host::Host;
use crate::journal::{can_be_stored, journal, store_back};
use crate::layout::Layout;
use crate::observer::{Observer, Unobserved};
use crate::tree::{self, Program};
use crate::{decode, depth, placement, references};

/// The most fuel that a run takes.
pub const MOST_FUEL: u32 = 1_000_000;

/// The bytes of a report.
pub const REPORT_BYTES: usize = 8;

/// What the call run is given.
#[derive(Clone, Debug, PartialEq, Eq)]
pub struct RunCall {
    pub nodes: Vec<u8>,
    pub edges: Vec<u8>,
    pub journal: Vec<u8>,
    pub program: Vec<u8>,
    pub fuel: u32,
    pub report: Vec<u8>,
}

/// What the call undo is given.
#[derive(Clone, Debug, PartialEq, Eq)]
pub struct UndoCall {
    pub nodes: Vec<u8>,
    pub edges: Vec<u8>,
    pub journal: Vec<u8>,
    pub count: u32,
    pub report: Vec<u8>,
}

/// The answer of a call and what each buffer holds after it.
#[derive(Clone, Debug, PartialEq, Eq)]
pub struct Outcome {
    pub answer: u32,
    pub nodes: Vec<u8>,
    pub edges: Vec<u8>,
    pub journal: Vec<u8>,
    pub report: Vec<u8>,
}

impl Outcome {
    /// The steps and the records of the report, which has 8 bytes.
    pub fn reported(&self) -> (u32, u32) {
        let number = |at: usize| {
            let four = self.report[at..at + 4].try_into();
            u32::from_be_bytes(four.expect("four bytes"))
        };
        (number(0), number(4))
    }
}

/// The call run at the base layout.
pub fn run(
    nodes: &[u8],
    edges: &[u8],
    journal: &[u8],
    program: &[u8],
    fuel: u32,
    report: &[u8],
) -> Outcome {
    let call = RunCall {
        nodes: nodes.to_vec(),
        edges: edges.to_vec(),
        journal: journal.to_vec(),
        program: program.to_vec(),
        fuel,
        report: report.to_vec(),
    };
    call.outcome()
}

/// The call undo at the base layout.
pub fn undo(nodes: &[u8], edges: &[u8], journal: &[u8], count: u32, report: &[u8]) -> Outcome {
    let call = UndoCall {
        nodes: nodes.to_vec(),
        edges: edges.to_vec(),
        journal: journal.to_vec(),
        count,
        report: report.to_vec(),
    };
    call.outcome()
}

impl RunCall {
    /// What the call gives at the base layout.
    pub fn outcome(&self) -> Outcome {
        self.outcome_at(&Layout::BASE, &mut Unobserved)
    }

    /// What the call gives at a layout.
    pub fn outcome_at(&self, layout: &Layout, observer: &mut dyn Observer) -> Outcome {
        match self.checked(layout) {
            Err(answer) => refused(self.untouched(), answer),
            Ok((host, program)) => self.started(layout, host, &program, observer),
        }
    }

    fn untouched(&self) -> Outcome {
        untouched(&self.nodes, &self.edges, &self.journal, &self.report)
    }

    /// The checks 9 to 19 in their order: the host and the program, or the lowest number that applies.
    fn checked(&self, layout: &Layout) -> Result<(Host, Program), u32> {
        lengths_are_right(layout, &self.untouched())?;
        if self.fuel > MOST_FUEL {
            return Err(answer::FUEL);
        }
        if self.program.len() > tree::limit::IMAGE_BYTES {
            return Err(answer::IMAGE);
        }
        let host = Host::read(layout, &self.nodes, &self.edges).map_err(|_| answer::LAYOUT)?;
        let program = decode::program(&self.program).map_err(|_| answer::FORM)?;
        references::check(&program).map_err(|_| answer::REFERENCES)?;
        if !placement::check(&program) {
            return Err(answer::PLACEMENT);
        }
        depth::check(&program).map_err(|_| answer::DEPTH)?;
        Ok((host, program))
    }

    fn started(
        &self,
        layout: &Layout,
        host: Host,
        program: &Program,
        observer: &mut dyn Observer,
    ) -> Outcome {
        let mut run = Run {
            program,
            layout,
            fuel_left: self.fuel,
            steps: 0,
            record_slots: self.journal.len() / layout.record_length(),
            observer,
        };
        let ending = run.command(&program.main, State::at_start(host));
        let steps = run.steps;
        match ending {
            Ending::Success(state) | Ending::Break(state) => self.result(layout, &state, steps),
            Ending::Fail => self.without_result(answer::FAIL, steps),
            Ending::Stop(answer) => self.without_result(answer, steps),
        }
    }

    fn result(&self, layout: &Layout, state: &State, steps: u32) -> Outcome {
        Outcome {
            answer: answer::RESULT,
            nodes: state.host.node_table(layout),
            edges: state.host.edge_table(layout),
            journal: journal(layout, &state.records, self.journal.len()),
            report: report(steps, state.records.len() as u32),
        }
    }

    /// After 1 to 6 the graph is what came in and the journal is all zero.
    fn without_result(&self, answer: u32, steps: u32) -> Outcome {
        Outcome {
            answer,
            journal: vec![0; self.journal.len()],
            report: report(steps, 0),
            ..self.untouched()
        }
    }
}

impl UndoCall {
    /// What the call gives at the base layout.
    pub fn outcome(&self) -> Outcome {
        self.outcome_at(&Layout::BASE)
    }

    /// What the call gives at a layout.
    pub fn outcome_at(&self, layout: &Layout) -> Outcome {
        match self.checked(layout) {
            Err(answer) => refused(self.untouched(), answer),
            Ok(()) => self.undone(layout),
        }
    }

    fn untouched(&self) -> Outcome {
        untouched(&self.nodes, &self.edges, &self.journal, &self.report)
    }

    /// The checks 9 to 12 and 20.
    fn checked(&self, layout: &Layout) -> Result<(), u32> {
        lengths_are_right(layout, &self.untouched())?;
        let length = layout.record_length();
        if self.count as usize > self.journal.len() / length {
            return Err(answer::UNDO);
        }
        let mut counted = self.journal.chunks(length).take(self.count as usize);
        match counted.all(|record| can_be_stored(layout, record, &self.nodes, &self.edges)) {
            true => Ok(()),
            false => Err(answer::UNDO),
        }
    }

    /// The counted records are stored back from last to first and zeroed.
    fn undone(&self, layout: &Layout) -> Outcome {
        let mut left = self.untouched();
        let length = layout.record_length();
        let counted = &mut left.journal[..self.count as usize * length];
        for record in counted.chunks_mut(length).rev() {
            store_back(layout, record, &mut left.nodes, &mut left.edges);
            record.fill(0);
        }
        left.report = report(0, self.count);
        left
    }
}

/// The buffers as they were given.
fn untouched(nodes: &[u8], edges: &[u8], journal: &[u8], report: &[u8]) -> Outcome {
    Outcome {
        answer: answer::RESULT,
        nodes: nodes.to_vec(),
        edges: edges.to_vec(),
        journal: journal.to_vec(),
        report: report.to_vec(),
    }
}

/// The checks 9 to 12, which both calls make.
fn lengths_are_right(layout: &Layout, given: &Outcome) -> Result<(), u32> {
    if given.report.len() != REPORT_BYTES {
        return Err(answer::REPORT);
    }
    if !layout.is_node_table(given.nodes.len()) {
        return Err(answer::NODE_TABLE);
    }
    if !layout.is_edge_table(given.edges.len()) {
        return Err(answer::EDGE_TABLE);
    }
    if !layout.is_journal(given.journal.len()) {
        return Err(answer::JOURNAL_TABLE);
    }
    Ok(())
}

/// A refusal writes zeros in the report, except on 9, and touches nothing more.
fn refused(given: Outcome, answer: u32) -> Outcome {
    let report = match answer {
        answer::REPORT => given.report,
        _ => report(0, 0),
    };
    Outcome {
        answer,
        report,
        ..given
    }
}

fn report(steps: u32, records: u32) -> Vec<u8> {
    [steps.to_be_bytes(), records.to_be_bytes()].concat()
}
