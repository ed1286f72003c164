//! Texts and images at the small core: what its tables hold, what they can't, and packing the tables of runner images.

use super::helpers::CASE_P;
use second::corpus;
use second::encode::{self, RunnerInput};
use second::layout::{Core, Layout};
use second::listing::{listing, read_input};
use second::text::{assemble_as, disassemble, draw, image_graph, pack, read_graph, runner_input, unpack, Procedures, Sizes};
use second::tree::{Command, Program};

fn skip() -> Program {
    Program::without_procedures(vec![], Command::Skip)
}

/// The runner input of a host graph's text at the small core.
fn input(graph: &str) -> RunnerInput {
    let graph = read_graph(Core::Small, "test", graph).unwrap_or_else(|complaint| panic!("{complaint}"));
    runner_input(&skip(), &graph, &Sizes::default()).expect("legal sizes")
}

fn refusal(graph: &str) -> String {
    let complaint = read_graph(Core::Small, "host", graph).expect_err("not refused");
    complaint.to_string()["host:".len()..].to_string()
}

#[test]
fn a_graph_fills_small_tables_with_the_usual_numbers() {
    let input = input("[ () (a(R), -2 # grey) (b, empty) | (x, a, b, 258 # dashed) ]");
    assert_eq!((input.nodes.len(), input.edges.len()), ((3 + 16) * 8, (1 + 16) * 10));
    assert_eq!(input.nodes[8..24], [1, 4, 1, 1, 255, 255, 255, 254, 1, 0, 0, 0, 0, 0, 0, 0]);
    assert_eq!(input.edges[..10], [1, 5, 0, 1, 1, 2, 0, 0, 1, 2]);
    assert_eq!((input.records, input.fuel), (255, 100_000));
}

#[test]
fn labels_and_slots_that_dont_fit_are_refused_with_their_place() {
    assert_eq!(refusal("[ (a, 1:2) | ]"), "1:9: an atom too many, expected at most 1");
    assert_eq!(refusal("[ (a, 1) |\n(e, a, a, 5:6 # red) ]"), "2:13: an atom too many, expected at most 1");
    let nodes = |count: usize| (0..count).map(|node| format!("(n{node}, empty)\n")).collect::<String>();
    let edges = |count: usize| (0..count).map(|edge| format!("(e{edge}, n127, n0, empty)\n")).collect::<String>();
    assert_eq!(refusal(&format!("[ {}| ]", nodes(129))), "129:1: a node slot too many, expected at most 128");
    assert_eq!(refusal(&format!("[ {}|\n{}]", nodes(128), edges(256))), "385:1: an edge slot too many, expected at most 255");
    let full = input(&format!("[ {}| {}]", nodes(128), edges(255)));
    assert_eq!((full.nodes.len(), full.edges.len()), (128 * 8, 255 * 10));
    assert_eq!(full.edges[254 * 10..], [1, 0, 0, 0, 127, 0, 0, 0, 0, 0]);
}

#[test]
fn the_numbers_of_a_host_section_are_the_small_cores() {
    let refusal = |numbers: &str| {
        let source = format!("Main = skip\nhost {numbers} [ (1, 5) | ]");
        let complaint = assemble_as("test", &source, Procedures::Kept, Core::Small).expect_err("not refused");
        complaint.to_string()["test:".len()..].to_string()
    };
    assert_eq!(refusal("records 256"), "2:14: records: 256 is out of range, expected a number from 0 to 255");
    assert_eq!(refusal("nodes 129"), "2:12: nodes: 129 is out of range, expected a number from 0 to 128");
    assert_eq!(refusal("edges 256"), "2:12: edges: 256 is out of range, expected a number from 0 to 255");
    assert_eq!(refusal("nodes 0"), "2:1: 0 node slots, expected from 1 (the host graph's) to 128");
}

/// Every image of the small core that a run starts with comes back through its text byte for byte.
#[test]
fn small_images_come_back_through_their_text() {
    let images = corpus::small_images().into_iter().chain(corpus::drawn_images(Core::Small, 3, 300));
    let mut back = 0;
    for image in images {
        let Ok(text) = disassemble(Core::Small, &image) else { continue };
        let assembly = assemble_as("again", &text, Procedures::Kept, Core::Small).unwrap_or_else(|complaint| panic!("{complaint}\n{text}"));
        let host = assembly.host.expect("a host section");
        let input = runner_input(&assembly.program, &host.graph, &host.sizes).expect("legal sizes");
        assert_eq!(encode::runner_input(&input), image, "{text}");
        back += 1;
    }
    assert!(back > 300, "{back}");
}

/// An input is read where a run of the small core starts, and a refusal names the number that the run answers.
#[test]
fn a_refusal_at_the_small_core_names_the_runs_answer() {
    let mut refused = [0; 20];
    for image in corpus::small_images().into_iter().chain(corpus::drawn_images(Core::Small, 4, 600)) {
        let Some(input) = read_input(&image) else { continue };
        let answer = second::listing::run_input_at(&Layout::SMALL, &input).answer;
        match disassemble(Core::Small, &image) {
            Ok(_) => assert!(answer < 9, "{answer}"),
            Err(reason) => {
                assert!(reason.ends_with(&format!("; a run answers {answer}")), "{answer}: {reason}");
                refused[answer as usize] += 1;
            }
        }
    }
    assert!([10, 11, 12, 13, 14, 15, 16, 17, 18, 19].iter().all(|answer| refused[*answer] > 0), "{refused:?}");
}

fn case_p(core: Core) -> Vec<u8> {
    let source = format!("{CASE_P}\nhost fuel 10 records 8 nodes 3 edges 2 [ (0, 5 # grey) (1, 7 # grey) | (0, 0, 1, empty) ]");
    let assembly = assemble_as("test", &source, Procedures::Kept, core).expect("legal");
    let host = assembly.host.expect("a host section");
    encode::runner_input(&runner_input(&assembly.program, &host.graph, &host.sizes).expect("legal"))
}

#[test]
fn pack_and_unpack_give_each_others_image() {
    let (wide, small) = (case_p(Core::Wide), case_p(Core::Small));
    assert_eq!((pack(&wide).as_ref(), unpack(&small).as_ref()), (Ok(&small), Ok(&wide)));
    assert_eq!(image_graph(Core::Small, &small), image_graph(Core::Wide, &wide));
    assert_eq!(draw(Core::Small, &small), draw(Core::Wide, &wide));
    assert!(listing(&unpack(&small).unwrap()).starts_with("answer 0 steps 3 records 4\n"));
}

/// A runner image of a skip on tables of a layout.
fn image(nodes: Vec<u8>, edges: Vec<u8>, records: u16) -> Vec<u8> {
    encode::runner_input(&RunnerInput { nodes, edges, records, fuel: 1, program: encode::program(&skip()) })
}

#[test]
fn what_cant_be_packed_is_said() {
    let wide = &Layout::BASE;
    let node = |atoms: &[i32]| wide.node_slot(0, false, atoms);
    let refused = |nodes: Vec<u8>, edges: Vec<u8>, records: u16| pack(&image(nodes, edges, records)).expect_err("not refused");
    assert_eq!(refused([node(&[1]), node(&[1, 2])].concat(), vec![], 1), "node 1 has a label of 2 atoms, expected at most 1");
    let edge = wide.edge_slot(0, 0, 0, &[1, 2, 3]);
    assert_eq!(refused(node(&[]), edge, 1), "edge 0 has a label of 3 atoms, expected at most 1");
    assert_eq!(refused(vec![0; 129 * 36], vec![], 1), "129 node slots, expected at most 128");
    assert_eq!(refused(vec![], vec![0; 256 * 40], 1), "256 edge slots, expected at most 255");
    let records = "offset 45, journal records: expected at most 255 records, found 256";
    assert_eq!(refused(node(&[]), vec![], 256), records);
    assert!(pack(&image(node(&[]), vec![0; 255 * 40], 255)).is_ok());
    assert_eq!(refused(vec![0; 35], vec![], 1), "offset 3, node table: expected 0 to 512 slots of 36 bytes, found 35 bytes");
    let small = image(Layout::SMALL.node_slot(1, false, &[]), vec![], 1);
    let already = "offset 3, node table: expected 0 to 512 slots of 36 bytes, found 8 bytes; these are tables of the other core already";
    assert_eq!(pack(&small), Err(already.to_string()));
    let program = Err("offset 0: no host graph, expected a runner image (tag 0x01)".to_string());
    assert_eq!((pack(&[0x55, 0, 0]), unpack(&[0x55, 0, 0])), (program.clone(), program));
}

#[test]
fn what_cant_be_unpacked_is_said() {
    let small = |nodes: Vec<u8>| unpack(&image(nodes, vec![], 300));
    assert_eq!(small(vec![0; 7]), Err("offset 3, node table: expected 0 to 128 slots of 8 bytes, found 7 bytes".to_string()));
    assert_eq!(small(vec![1, 0, 0, 2, 0, 0, 0, 0]), Err("offset 3, node slot 0: its label is longer than one atom".to_string()));
    let records = read_input(&small(vec![0; 8]).expect("records of the wide core are kept"));
    assert_eq!(records.expect("a runner image").records, 300);
    let mut long = read_input(&image(vec![0; 128 * 8], vec![0; 255 * 10], 1)).expect("a runner image");
    long.program = vec![0x55; 51_000];
    let refused = unpack(&encode::runner_input(&long));
    let message = "the runner's input would take 65,829 bytes, expected at most 65,536: fewer slots, or a shorter program";
    assert_eq!(refused, Err(message.to_string()));
}
