//! What an export writes an import reads, slots closed up, and what other spellings of a graph come to.

use second::corpus;
use second::host::{Edge, Host};
use second::layout::{Core, Layout};
use second::listing::read_input;
use second::random::Random;
use second::stored::{drawn_host, spelled};
use second::text_graph::{printed, ExportCall, ImportCall};

/// The text of tables that keep the layout.
fn exported(layout: &Layout, nodes: &[u8], edges: &[u8]) -> Vec<u8> {
    let call = |bytes: usize| ExportCall { nodes: nodes.to_vec(), edges: edges.to_vec(), buffer: vec![0xEE; bytes] };
    let length = call(0).outcome(layout).length;
    let left = call(length).outcome(layout);
    assert_eq!((left.answer, left.length), (0, length));
    left.buffer
}

/// The tables of a text's graph, of as many slots as these.
fn imported(layout: &Layout, text: &[u8], like: &Host) -> (Vec<u8>, Vec<u8>) {
    let nodes = vec![0xEE; like.nodes.len() * layout.node_length()];
    let edges = vec![0xEE; like.edges.len() * layout.edge_length()];
    let left = ImportCall { text: text.to_vec(), nodes, edges }.outcome(layout);
    assert_eq!(left.answer, 0, "{}", String::from_utf8_lossy(text));
    (left.nodes, left.edges)
}

/// The graph with its live slots in front, in their order.
fn closed_up(host: &Host) -> Host {
    let live: Vec<usize> = host.live_nodes().map(|(slot, _)| slot).collect();
    let moved = |end: u16| live.iter().position(|slot| *slot == usize::from(end)).expect("a live end") as u16;
    let edge = |edge: &Edge| Edge { source: moved(edge.source), target: moved(edge.target), ..edge.clone() };
    let mut closed = Host {
        nodes: host.live_nodes().map(|(_, node)| Some(node.clone())).collect(),
        edges: host.live_edges().map(|(_, live)| Some(edge(live))).collect(),
    };
    closed.nodes.resize(host.nodes.len(), None);
    closed.edges.resize(host.edges.len(), None);
    closed
}

/// Small hosts by a generator of their own, and those of drawn images that keep the layout.
fn hosts(core: Core) -> Vec<Host> {
    let layout = core.layout();
    let small = (0..2_000).map(|index| drawn_host(&mut Random::of_index(31, index), layout));
    let inputs = corpus::drawn_images(core, 9, 300).into_iter().filter_map(|image| read_input(&image));
    let whole = inputs.filter(|it| layout.is_node_table(it.nodes.len()) && layout.is_edge_table(it.edges.len()));
    small.chain(whole.filter_map(|it| Host::read(layout, &it.nodes, &it.edges).ok())).collect()
}

#[test]
fn an_import_of_an_export_closes_the_slots_up_and_that_stays() {
    for core in Core::BOTH {
        let layout = core.layout();
        let hosts = hosts(core);
        assert!(hosts.len() > 2_100, "{}", hosts.len());
        for host in &hosts {
            let closed = closed_up(host);
            let text = exported(layout, &host.node_table(layout), &host.edge_table(layout));
            let (nodes, edges) = imported(layout, &text, host);
            assert_eq!((&nodes, &edges), (&closed.node_table(layout), &closed.edge_table(layout)));
            let again = exported(layout, &nodes, &edges);
            assert_eq!(imported(layout, &again, host), (nodes, edges));
            assert_eq!(exported(layout, &closed.node_table(layout), &closed.edge_table(layout)), again);
        }
    }
}

#[test]
fn however_a_graph_is_spelled_it_is_the_same_graph() {
    for core in Core::BOTH {
        let layout = core.layout();
        for (index, host) in hosts(core).iter().enumerate() {
            let text = spelled(&mut Random::of_index(32, index as u64), host);
            let closed = closed_up(host);
            assert_eq!(imported(layout, &text, host), (closed.node_table(layout), closed.edge_table(layout)));
        }
    }
}

#[test]
fn the_program_prints_the_export_of_the_import() {
    let layout = Core::Wide.layout();
    let full = Host { nodes: vec![None; layout.most_nodes], edges: vec![None; layout.most_edges] };
    for host in hosts(Core::Wide).iter().take(300) {
        let text = spelled(&mut Random::new(33), host);
        let (nodes, edges) = imported(layout, &text, &full);
        assert_eq!(printed(&text).into_bytes(), exported(layout, &nodes, &edges));
    }
}
