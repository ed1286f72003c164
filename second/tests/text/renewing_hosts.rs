//! Tables of the old layout, of four atoms: `renew` carries them over, `dis` and `dot` name it.

use super::round_trips::random_runner_input;
use second::carrying::{carried, Way};
use second::encode::{self, RunnerInput};
use second::layout::{Core, Layout};
use second::listing::run_input;
use second::random::Random;
use second::text::{disassemble, draw, draw_after, renew, HostRenewal, Renewed};
use second::tree::*;

const OLD: Layout = Layout::FOUR;

/// A root of two atoms behind a free slot with a dashed loop of four, in tables of the layout, and this program.
fn runner(layout: &Layout, program: &[u8]) -> RunnerInput {
    RunnerInput {
        nodes: [vec![0; layout.node_length()], layout.node_slot(mark::GREY, true, &[-1, 2])].concat(),
        edges: layout.edge_slot(mark::DASHED, 1, 1, &[1, 2, 3, 4]),
        records: 8,
        fuel: 10,
        program: program.to_vec(),
    }
}

fn renewed(input: &RunnerInput) -> Result<Renewed, String> {
    renew(&encode::runner_input(input))
}

fn done(input: &RunnerInput, host: HostRenewal) -> Result<Renewed, String> {
    Ok(Renewed { image: encode::runner_input(input), host: Some(host) })
}

/// A lone skip, `if skip then skip else skip` in the old form and in today's, and a call of a procedure.
const SKIP: [u8; 3] = [0x55, 0, 0];
const OLD_IF: [u8; 12] = [0x52, 0, 9, 0x55, 0, 0, 0x55, 0, 0, 0x55, 0, 0];
const TODAYS_IF: [u8; 13] = [0x59, 0, 10, 0, 0x55, 0, 0, 0x55, 0, 0, 0x55, 0, 0];
const CALL: [u8; 10] = [0x17, 0, 3, 0x55, 0, 0, 0x58, 0, 1, 0];

#[test]
fn old_tables_are_widened_beside_a_program_of_either_form() {
    let programs: [(&[u8], &[u8]); 4] = [(&SKIP, &SKIP), (&OLD_IF, &TODAYS_IF), (&TODAYS_IF, &TODAYS_IF), (&CALL, &CALL)];
    for (before, after) in programs {
        let widened = done(&runner(&Layout::BASE, after), HostRenewal::Widened);
        assert_eq!(renewed(&runner(&OLD, before)), widened, "{before:?}");
    }
}

#[test]
fn tables_of_eight_atoms_stay_as_they_are() {
    for (before, after) in [(&SKIP[..], &SKIP[..]), (&OLD_IF, &TODAYS_IF)] {
        let left = done(&runner(&Layout::BASE, after), HostRenewal::Left);
        assert_eq!(renewed(&runner(&Layout::BASE, before)), left, "{before:?}");
    }
}

#[test]
fn an_image_that_needs_nothing_says_so() {
    let says = |program: &[u8], what: &str| {
        let reason = Err(format!("an image of today's form already, with {what}"));
        assert_eq!(renewed(&runner(&Layout::BASE, program)), reason);
        let empty = RunnerInput { nodes: vec![], edges: vec![], ..runner(&OLD, program) };
        assert_eq!(renewed(&empty), reason, "without slots");
    };
    says(&TODAYS_IF, "guarded commands (0x59)");
    says(&CALL, "procedures (0x17)");
}

/// 9 node slots and 5 edge slots of the old layout have as many bytes as 5 and 3 of today's.
#[test]
fn tables_that_keep_both_layouts_are_taken_for_old_ones() {
    let free = |nodes: usize, edges: usize| RunnerInput { nodes: vec![0; nodes], edges: vec![0; edges], ..runner(&OLD, &TODAYS_IF) };
    let both = free(9 * 20, 5 * 24);
    assert_eq!(run_input(&both).answer, 0);
    assert_eq!(renewed(&both), done(&free(9 * 36, 5 * 40), HostRenewal::Widened));
}

#[test]
fn tables_of_neither_layout_are_refused_with_the_place() {
    let refused = |edit: fn(&mut RunnerInput)| {
        let mut input = runner(&OLD, &OLD_IF);
        edit(&mut input);
        renewed(&input).expect_err("not refused")
    };
    let start = "the host's tables keep neither the layout of four atoms (";
    assert_eq!(
        refused(|input| input.nodes.push(0)),
        format!("{start}offset 3, node table: expected 0 to 512 slots of 20 bytes, found 41 bytes) nor that of eight (offset 3, node table: expected 0 to 512 slots of 36 bytes, found 41 bytes)")
    );
    assert_eq!(
        refused(|input| input.nodes[22] = 2),
        format!("{start}offset 23, node slot 1: its root flag is neither 0 nor 1) nor that of eight (offset 3, node table: expected 0 to 512 slots of 36 bytes, found 40 bytes)")
    );
    assert_eq!(
        refused(|input| input.edges[5] = 0),
        format!("{start}offset 46, edge slot 0: its source 0 is no live node slot) nor that of eight (offset 3, node table: expected 0 to 512 slots of 36 bytes, found 40 bytes)")
    );
    let mut wide = runner(&Layout::BASE, &OLD_IF);
    wide.nodes[36 + 3] = 9;
    let said = renewed(&wide).expect_err("not refused");
    assert!(said.ends_with("nor that of eight (offset 39, node slot 1: its label is longer than eight atoms)"), "{said}");
}

/// Full tables of the old layout, all free, beside a program of so many bytes.
fn full_beside(program: usize) -> RunnerInput {
    RunnerInput {
        nodes: vec![0; OLD.most_nodes * OLD.node_length()],
        edges: vec![0; OLD.most_edges * OLD.edge_length()],
        ..runner(&OLD, &skips(program))
    }
}

#[test]
fn a_renewed_input_of_the_runner_keeps_its_limit() {
    let most = 65_536 - 21 - 512 * 36 - 1024 * 40;
    let longest = renewed(&full_beside(most)).expect("an input");
    assert_eq!((longest.image.len(), longest.host), (65_536, Some(HostRenewal::Widened)));
    let refused = |program: usize| renewed(&full_beside(program)).expect_err("not refused");
    assert_eq!(
        refused(most + 1),
        "renewed, the runner's input would have 65,537 bytes, over the limit of 65,536: it has to be made smaller by 1 byte"
    );
    assert_eq!(
        refused(8192),
        "renewed, the runner's input would have 67,605 bytes, over the limit of 65,536: it has to be made smaller by 2069 bytes"
    );
}

/// A command of so many bytes, 3 or more.
fn skips(bytes: usize) -> Vec<u8> {
    match bytes {
        3 => SKIP.to_vec(),
        4..=11 => encode::field(0x50, &vec![0; bytes - 3]),
        _ => {
            let payload = bytes - 3;
            let parts = (payload / 3).min(limit::COMMANDS);
            let share = |part: usize| payload / parts + usize::from(part < payload % parts);
            encode::field(0x51, &(0..parts).flat_map(|part| skips(share(part))).collect::<Vec<u8>>())
        }
    }
}

#[test]
fn random_hosts_are_widened() {
    let mut random = Random::new(41);
    let mut widened = 0;
    for _ in 0..1500 {
        let today = random_runner_input(&mut random);
        let Ok((nodes, edges)) = carried(Way::Narrow, &today.nodes, &today.edges) else {
            continue;
        };
        if nodes.is_empty() && edges.is_empty() {
            continue;
        }
        widened += 1;
        let old = RunnerInput { nodes, edges, ..today.clone() };
        assert_eq!(renewed(&old), done(&today, HostRenewal::Widened));
    }
    assert!(widened >= 50, "{widened}");
}

const IN_OLD_LAYOUT: &str = "\
    tables of the old layout, in which labels have at most four atoms; \
    `gp2 renew OLD -o NEW` carries them over";

#[test]
fn dis_and_dot_say_of_old_tables_what_they_are() {
    let image = encode::runner_input(&runner(&OLD, &SKIP));
    let said = Err(format!("offset 3, node table: {IN_OLD_LAYOUT}; a run answers 10"));
    assert_eq!((disassemble(Core::Wide, &image), draw(Core::Wide, &image)), (said.clone(), said));
    assert_eq!(draw_after(Core::Wide, &image), Err(IN_OLD_LAYOUT.to_string()));
    let whole_slots = RunnerInput { nodes: OLD.node_slot(mark::NONE, false, &[7; 4]).repeat(9), edges: vec![], ..runner(&OLD, &SKIP) };
    let said = disassemble(Core::Wide, &encode::runner_input(&whole_slots));
    assert_eq!(said, Err(format!("offset 3, node slot 0: {IN_OLD_LAYOUT}; a run answers 15")));
    let renewed = renewed(&whole_slots).expect("an image").image;
    assert!(disassemble(Core::Wide, &renewed).is_ok_and(|text| text.contains("7:7:7:7")));
}
