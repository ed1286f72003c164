//! A draft: a runner input with its host and the tree of its program, legal as it is drawn.

use super::commands::main_command;
use super::hosts::{Host, Size};
use super::outlining::outline;
use super::palette::Palette;
use super::rules::rules;
use crate::calls::MOST_FUEL;
use crate::encode::{self, RunnerInput};
use crate::layout::Layout;
use crate::random::Random;
use crate::tree::*;

/// The percentage of drafts that have procedures.
const WITH_PROCEDURES: usize = 40;

#[derive(Clone, Debug)]
pub struct Draft {
    /// The layout of its tables and of its journal.
    pub layout: &'static Layout,
    pub host: Host,
    pub program: Program,
    pub records: u16,
    pub fuel: u32,
}

/// How much program a draft is to have.
#[derive(Clone, Copy, Debug)]
pub struct Extent {
    pub rules: usize,
    pub commands: usize,
    pub levels: usize,
}

impl Extent {
    pub fn draw(random: &mut Random) -> Extent {
        let rules = match random.weighted(&[2, 18, 26, 22, 15, 9, 6, 2]) {
            7 => random.between(7, 12),
            few => few,
        };
        Extent {
            rules,
            commands: random.pick(&[2, 4, 6, 8, 12]),
            levels: limit::DEPTH,
        }
    }
}

impl Draft {
    pub fn draw(random: &mut Random, layout: &'static Layout) -> Draft {
        let palette = Palette::draw(random, layout);
        let size = Size::draw(random);
        let host = Host::draw(random, &palette, size);
        let extent = Extent::draw(random);
        Draft::over(random, &palette, host, extent)
    }

    /// A program over this host.
    pub fn over(random: &mut Random, palette: &Palette, host: Host, extent: Extent) -> Draft {
        let drawn = rules(random, palette, &host, extent.rules);
        let main = main_command(random, &drawn, extent.commands, extent.levels);
        let rules = drawn.into_iter().map(|drawn| drawn.rule).collect();
        let mut program = Program::without_procedures(rules, main);
        let beside = &mut random.beside();
        if beside.chance(WITH_PROCEDURES) {
            outline(beside, &mut program, extent.levels);
        }
        let fuel = fuel(random, most_fuel(&host, &program));
        Draft {
            layout: palette.layout,
            host,
            program,
            records: records(random, palette.layout),
            fuel,
        }
    }

    pub fn input(&self) -> RunnerInput {
        RunnerInput {
            nodes: self.host.node_table(self.layout),
            edges: self.host.edge_table(self.layout),
            records: self.records,
            fuel: self.fuel,
            program: encode::program(&self.program),
        }
    }
}

/// The most fuel with which a run takes no long time.
fn most_fuel(host: &Host, program: &Program) -> usize {
    let repeats = !program.procedures.is_empty() || has_loop(&program.main);
    if !repeats || program.rules.is_empty() {
        return MOST_FUEL as usize;
    }
    (4_000_000 / longest_search(host, program)).clamp(60, MOST_FUEL as usize)
}

fn has_loop(command: &Command) -> bool {
    matches!(command, Command::Loop(_)) || command.parts().into_iter().any(has_loop)
}

/// How many candidates a search for a match looks at, about.
fn longest_search(host: &Host, program: &Program) -> usize {
    let slots = host.nodes.len();
    let ways = |rule: &Rule| slots.saturating_pow(rule.left.nodes.len() as u32);
    let most = program.rules.iter().map(ways).max().unwrap_or(0);
    most.saturating_add(host.edges.len() + 10)
}

/// Ample fuel mostly, seldom a little, often much.
fn fuel(random: &mut Random, most: usize) -> u32 {
    let drawn = match random.weighted(&[3, 79, 18]) {
        0 => random.below(30),
        1 => random.between(100, 2000),
        _ => random.pick(&[10_000, 65_535, 65_536, 100_000, 1_000_000]),
    };
    drawn.min(most) as u32
}

/// Ample records mostly. At a layout of few records now and then one more than there may be.
fn records(random: &mut Random, layout: &Layout) -> u16 {
    let most = layout.most_records;
    let drawn = match random.weighted(&[3, 12, 68, 17]) {
        0 => random.below(10),
        1 => random.between(10, 40),
        2 => random.between(100, most.min(400)),
        _ if most < 256 => random.pick(&[most - 1, most, most, most, most, most + 1]),
        _ => random.pick(&[255, 256, 257, 1023, 1024]),
    };
    drawn as u16
}
