//! From images to text and back to the same bytes.

use super::legal_programs;
use second::build::*;
use second::encode::{self, RunnerInput};
use second::layout::{Core, Layout};
use second::random::Random;
use second::text::{assemble, assemble_program, disassemble, runner_input};
use second::tree::*;
use second::{decode, depth, placement, references};

/// The program image that the text of an image assembles to.
fn program_again(image: &[u8]) -> Vec<u8> {
    let text = disassemble(Core::Wide, image).expect("a legal image");
    let program = assemble_program("again", &text);
    encode::program(&program.unwrap_or_else(|complaint| panic!("{complaint}\n{text}")))
}

/// The runner image that the text of a runner image assembles to.
pub fn runner_again(image: &[u8]) -> Vec<u8> {
    let text = disassemble(Core::Wide, image).expect("a legal image");
    let assembly =
        assemble("again", &text).unwrap_or_else(|complaint| panic!("{complaint}\n{text}"));
    let host = assembly.host.expect("a host section");
    let input = runner_input(&assembly.program, &host.graph, &host.sizes).expect("legal sizes");
    encode::runner_input(&input)
}

fn check(program: &Program) {
    let image = encode::program(program);
    assert_eq!(program_again(&image), image, "{program:#?}");
}

#[test]
fn random_programs_are_legal() {
    let mut random = Random::new(1);
    for _ in 0..500 {
        let program = legal_programs::program(&mut random);
        assert_eq!(
            decode::program(&encode::program(&program)),
            Ok(program.clone())
        );
        assert_eq!(references::check(&program), Ok(()));
        assert!(placement::check(&program));
        assert!(depth::check(&program).is_ok());
    }
}

#[test]
fn random_programs_come_back() {
    let mut random = Random::new(2);
    for _ in 0..3000 {
        check(&legal_programs::program(&mut random));
    }
}

/// A program of commands alone.
fn of_command(main: Command) -> Program {
    Program::without_procedures(vec![], main)
}

#[test]
fn sequences_of_one_and_nested_ones_come_back() {
    let one = |command| Command::Sequence(vec![command]);
    check(&of_command(one(Command::Skip)));
    check(&of_command(one(one(one(Command::Fail)))));
    let pair = Command::Sequence(vec![
        one(Command::Skip),
        Command::Sequence(vec![Command::Fail; 2]),
    ]);
    check(&of_command(pair.clone()));
    check(&of_command(one(pair.clone())));
    check(&of_command(looped(one(Command::Break))));
    check(&of_command(if_command(
        one(pair.clone()),
        pair.clone(),
        pair,
    )));
}

#[test]
fn branching_in_branches_and_guards_comes_back() {
    let branching = || try_command(Command::Skip, Command::Fail, Command::Skip);
    check(&of_command(if_command(
        branching(),
        branching(),
        branching(),
    )));
    check(&of_command(looped(branching())));
    check(&of_command(looped(looped(branching()))));
    check(&of_command(Command::Sequence(vec![branching(); 2])));
}

/// Sixteen commands, each a sequence of sixteen, which the text breaks into lines.
#[test]
fn long_programs_come_back_from_broken_lines() {
    let set = Command::RuleSet(vec![0; limit::RULE_NUMBERS]);
    let inner = Command::Sequence(vec![set; limit::COMMANDS]);
    let one = Command::Sequence(vec![inner.clone()]);
    let branching = if_command(inner.clone(), one.clone(), inner.clone());
    let guarded = try_command(branching.clone(), Command::Skip, branching.clone());
    let main = Command::Sequence(vec![one, branching, looped(inner), guarded]);
    let program = Program::without_procedures(vec![Rule::default()], main);
    check(&program);
    let text = disassemble(Core::Wide, &encode::program(&program)).expect("legal");
    assert!(text.lines().all(|line| line.len() <= 90), "{text}");
}

#[test]
fn depth_sixteen_comes_back_whatever_it_is_made_of() {
    let wraps: [fn(Command) -> Command; 4] = [
        |inner| Command::Sequence(vec![inner]),
        looped,
        |inner| if_command(inner, Command::Skip, Command::Skip),
        |inner| try_command(Command::Skip, Command::Skip, inner),
    ];
    for wrap in wraps {
        let mut command = Command::Fail;
        for _ in 1..limit::DEPTH {
            command = wrap(command);
        }
        check(&of_command(command));
    }
    let mut random = Random::new(3);
    for _ in 0..200 {
        let mut command = Command::Fail;
        for _ in 1..limit::DEPTH {
            command = random.pick(&wraps)(command);
        }
        check(&of_command(command));
    }
}

/// Tables with free slots in front, between and behind, and every mark, root flag and label length.
pub fn random_runner_input(random: &mut Random) -> RunnerInput {
    let (node_slots, edge_slots) = (random.below(12), random.below(12));
    let mut live = Vec::new();
    let mut nodes = Vec::new();
    for slot in 0..node_slots {
        if random.chance(30) {
            nodes.extend([0; Layout::BASE.node_length()]);
            continue;
        }
        live.push(slot as u16);
        nodes.extend(encode::node_slot(
            random.below(5) as u8,
            random.chance(40),
            &atoms(random),
        ));
    }
    let mut edges = Vec::new();
    for _ in 0..edge_slots {
        if live.is_empty() || random.chance(30) {
            edges.extend([0; Layout::BASE.edge_length()]);
            continue;
        }
        let (source, target) = (random.pick(&live), random.pick(&live));
        edges.extend(encode::edge_slot(
            random.pick(&[0, 1, 2, 3, 5]),
            source,
            target,
            &atoms(random),
        ));
    }
    RunnerInput {
        nodes,
        edges,
        records: random.below(1025) as u16,
        fuel: random.below(1_000_001) as u32,
        program: encode::program(&legal_programs::program(random)),
    }
}

fn atoms(random: &mut Random) -> Vec<i32> {
    let number = |random: &mut Random| match random.below(2) {
        0 => random.pick(&[0, -1, i32::MIN, i32::MAX]),
        _ => random.next() as i32,
    };
    let length = random.below(Layout::BASE.atoms + 1);
    (0..length).map(|_| number(random)).collect()
}

#[test]
fn random_runner_images_come_back() {
    let mut random = Random::new(4);
    for _ in 0..1000 {
        let image = encode::runner_input(&random_runner_input(&mut random));
        assert_eq!(runner_again(&image), image);
    }
}

#[test]
fn full_tables_come_back() {
    let nodes: Vec<u8> = (0..512)
        .flat_map(|number| encode::node_slot(4, true, &[number; Layout::BASE.atoms]))
        .collect();
    let edges: Vec<u8> = (0..1024)
        .flat_map(|number| encode::edge_slot(5, number / 2, 511, &[-1; Layout::BASE.atoms]))
        .collect();
    let program = encode::program(&of_command(Command::Skip));
    let input = RunnerInput {
        nodes,
        edges,
        records: 1024,
        fuel: 1_000_000,
        program,
    };
    let image = encode::runner_input(&input);
    assert_eq!(runner_again(&image), image);
}

fn small_left() -> Side {
    let [list, i, j] = [0, 1, 2].map(Element::Variable);
    (
        vec![root(mark::ANY, &[list]), node(mark::NONE, &[i, j])],
        vec![edge(mark::DASHED, 1, 0, &[])],
    )
}

fn small_right() -> Side {
    let label = [
        Element::Constant(-7),
        Element::Difference(Operand::Variable(1), Operand::Constant(-2)),
        Element::Sum(Operand::Constant(3), Operand::Variable(2)),
    ];
    (
        vec![node(mark::ANY, &[]), node(mark::NONE, &label)],
        vec![edge(mark::RED, 0, 1, &[])],
    )
}

fn small_tests() -> Vec<Test> {
    let less = TestKind::Relation(Relation::Less, Operand::Variable(1), Operand::Constant(5));
    let tests = [
        (true, TestKind::Edge(0, 1)),
        (true, TestKind::InDegree(1, 2)),
        (false, TestKind::OutDegree(0, 0)),
        (true, less),
    ];
    tests.map(|(negated, kind)| Test { negated, kind }).to_vec()
}

/// A rule in which most parts of the notation occur.
fn small_rule() -> Rule {
    Rule {
        variables: vec![VariableType::List, VariableType::Int, VariableType::Int],
        tests: small_tests(),
        ..rule(small_left(), small_right(), 1)
    }
}

#[test]
fn the_text_of_a_small_image_reads_so() {
    let main = Command::Sequence(vec![
        looped(call(0)),
        Command::Sequence(vec![Command::RuleSet(vec![0, 0])]),
        if_command(Command::Skip, Command::Fail, Command::Skip),
    ]);
    let image = encode::program(&Program::without_procedures(vec![small_rule()], main));
    let expected = "\
Main = r0!; ({r0, r0};); if skip then fail else skip

r0(x0: list; i1, i2: int)
[ (n0(R), x0 # any) (n1, i1:i2) | (e0, n1, n0, empty # dashed) ]
=>
[ (n0, empty # any) (n2, -7:i1--2:3+i2) | (e0, n0, n2, empty # red) ]
interface = {n0}
where not edge(n0, n1) and indeg(n1) != 2 and outdeg(n0) = 0 and i1 >= 5
";
    assert_eq!(disassemble(Core::Wide, &image).expect("legal"), expected);
    assert_eq!(program_again(&image), image);
}
