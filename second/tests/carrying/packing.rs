//! Pack and unpack: bytes of slots, numbers that the other side has not, and properties over drawn hosts.

use super::outcome;
use second::carrying::{carried, Carried, CarryCall, Way};
use second::corpus;
use second::host::{Edge, Host, Node};
use second::layout::{Core, Layout};
use second::listing::read_input;
use second::random::Random;
use second::refusals::Carrying;

const BASE: Layout = Layout::BASE;
const SMALL: Layout = Layout::SMALL;

/// A green root of one atom behind a free slot, and a red edge of one atom from it to itself.
const SMALL_NODES: [u8; 16] = [0, 0, 0, 0, 0, 0, 0, 0, 1, 2, 1, 1, 255, 255, 255, 254];
const SMALL_EDGES: [u8; 10] = [1, 1, 0, 1, 1, 1, 128, 0, 0, 0];

fn wide_nodes() -> Vec<u8> {
    [&[0; 36], &SMALL_NODES[8..], &[0; 28]].concat()
}

fn wide_edges() -> Vec<u8> {
    [&[1, 1, 0, 1, 0, 1, 0, 1, 128, 0, 0, 0][..], &[0; 28]].concat()
}

#[test]
fn slots_are_packed_and_unpacked_byte_by_byte() {
    let call = |nodes: &[u8], edges: &[u8], to_nodes: usize, to_edges: usize| CarryCall {
        nodes: nodes.to_vec(),
        edges: edges.to_vec(),
        to_nodes: vec![0xEE; to_nodes],
        to_edges: vec![0xEE; to_edges],
    };
    let packed = call(&wide_nodes(), &wide_edges(), 2 * 8, 10).outcome(Way::Pack);
    assert_eq!(packed, Carried { answer: 0, nodes: SMALL_NODES.to_vec(), edges: SMALL_EDGES.to_vec() });
    let more = call(&wide_nodes(), &wide_edges(), 4 * 8, 3 * 10).outcome(Way::Pack);
    let free = [&SMALL_NODES[..], &[0; 16]].concat();
    assert_eq!((more.answer, more.nodes, more.edges), (0, free, [&SMALL_EDGES[..], &[0; 20]].concat()));
    let unpacked = call(&SMALL_NODES, &SMALL_EDGES, 2 * 36, 40).outcome(Way::Unpack);
    assert_eq!(unpacked, Carried { answer: 0, nodes: wide_nodes(), edges: wide_edges() });
    let fewer = call(&SMALL_NODES, &[0; 20], 2 * 36, 0).outcome(Way::Unpack);
    assert_eq!(fewer, Carried { answer: 0, nodes: wide_nodes(), edges: vec![] });
    let without_room = call(&SMALL_NODES, &SMALL_EDGES, 2 * 36, 0).outcome(Way::Unpack);
    assert_eq!(without_room, Carried { answer: 29, nodes: vec![0xEE; 72], edges: vec![] });
}

/// A live node of this number in a wide table of so many slots.
fn live_node(number: usize, slots: usize) -> Host {
    let node = Node { mark: 1, root: false, label: Default::default() };
    let mut host = Host { nodes: vec![None; slots], edges: vec![] };
    host.nodes[number] = Some(node);
    host
}

#[test]
fn no_number_becomes_another_where_the_small_core_has_not_as_many() {
    let packed = |number: usize, to: usize| outcome(&Carrying::to_slots(Way::Pack, &live_node(number, 512), to, 0)).answer;
    assert_eq!([0, 126, 127].map(|number| packed(number, 128)), [0; 3]);
    assert_eq!([128, 129, 255, 256, 257, 384, 511].map(|number| packed(number, 128)), [29; 7]);
    assert_eq!([packed(0, 1), packed(1, 1), packed(256, 1), packed(0, 0)], [0, 29, 29, 29]);
    let edge = |number: usize| {
        let mut host = live_node(0, 1);
        host.edges = vec![None; 1024];
        host.edges[number] = Some(Edge { mark: 0, source: 0, target: 0, label: Default::default() });
        outcome(&Carrying::to_slots(Way::Pack, &host, 1, 255)).answer
    };
    assert_eq!([0, 253, 254].map(edge), [0; 3]);
    assert_eq!([255, 256, 511, 1023].map(edge), [29; 4]);
}

/// Tables of drawn images that keep the layout of their core.
fn drawn_tables(core: Core) -> Vec<(Vec<u8>, Vec<u8>)> {
    let layout = core.layout();
    let inputs = corpus::drawn_images(core, 9, 2_000).into_iter().filter_map(|image| read_input(&image));
    let whole = inputs.filter(|it| layout.is_node_table(it.nodes.len()) && layout.is_edge_table(it.edges.len()));
    whole.filter(|it| Host::read(layout, &it.nodes, &it.edges).is_ok()).map(|it| (it.nodes, it.edges)).collect()
}

#[test]
fn a_host_of_the_small_core_comes_back_byte_for_byte() {
    let tables = drawn_tables(Core::Small);
    for (nodes, edges) in &tables {
        let (wide_nodes, wide_edges) = carried(Way::Unpack, nodes, edges).expect("each of them can be unpacked");
        assert_eq!(Host::read(&BASE, &wide_nodes, &wide_edges), Host::read(&SMALL, nodes, edges));
        assert_eq!(carried(Way::Pack, &wide_nodes, &wide_edges), Ok((nodes.clone(), edges.clone())));
    }
    assert!(tables.len() > 1_500, "{}", tables.len());
}

/// Whether a host has a live slot of a number from these on, or a label of more than one atom.
fn is_unfit(host: &Host, nodes: usize, edges: usize) -> bool {
    let long = |atoms: &[i32]| atoms.len() > 1;
    host.live_nodes().any(|(slot, node)| slot >= nodes || long(node.label.atoms()))
        || host.live_edges().any(|(slot, edge)| slot >= edges || long(edge.label.atoms()))
}

/// The table carried to some slots has the same live slots, and free ones else; or nothing of it is written.
#[test]
fn a_host_is_packed_to_any_number_of_slots_or_the_destination_stays() {
    let mut answers = [[0; 2]; 2];
    for (way, core) in [(Way::Pack, Core::Wide), (Way::Unpack, Core::Small)] {
        let (from, to) = (way.from(), way.to());
        for (index, (nodes, edges)) in drawn_tables(core).into_iter().enumerate() {
            let random = &mut Random::of_index(10, index as u64);
            let host = Host::read(from, &nodes, &edges).expect("it keeps the layout");
            let node_slots = random.between(0, host.nodes.len() + 4).min(to.most_nodes);
            let edge_slots = random.between(host.edges.len() / 2, host.edges.len() + 4).min(to.most_edges);
            let filled = |bytes: usize| (0..bytes).map(|at| at as u8 | 1).collect::<Vec<u8>>();
            let (to_nodes, to_edges) = (filled(node_slots * to.node_length()), filled(edge_slots * to.edge_length()));
            let call = CarryCall { nodes, edges, to_nodes: to_nodes.clone(), to_edges: to_edges.clone() };
            let left = call.outcome(way);
            let unfit = is_unfit(&host, node_slots, edge_slots);
            answers[core as usize][usize::from(unfit)] += 1;
            if unfit {
                assert_eq!(left, Carried { answer: 29, nodes: to_nodes, edges: to_edges });
                continue;
            }
            assert_eq!(left.answer, 0);
            let carried = Host::read(to, &left.nodes, &left.edges).expect("what is packed keeps the layout");
            assert_eq!((carried.nodes.len(), carried.edges.len()), (node_slots, edge_slots));
            assert!(carried.live_nodes().eq(host.live_nodes()) && carried.live_edges().eq(host.live_edges()));
        }
    }
    assert!(answers.iter().flatten().all(|count| *count > 100), "{answers:?}");
}
