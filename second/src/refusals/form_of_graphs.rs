//! The refusals 16 of graphs, nodes, edges and label elements.

use super::form::Parts;
use super::programs::{images, Images};
use crate::build::node;
use crate::encode::{self, field};
use crate::tree::{limit, mark, Element, Rule};

/// The image of one side's graph.
type Side = fn(&[u8]) -> Vec<u8>;

const SIDES: [(&str, Side); 2] = [("left", left), ("right", right)];

/// An image whose one rule has this left graph, an empty right one, three int variables and no tests.
fn left(graph: &[u8]) -> Vec<u8> {
    let mut parts = Parts::of(&Rule::default());
    parts.types = vec![1, 1, 1];
    parts.left = graph.to_vec();
    parts.image()
}

/// The same on the right side, with all three variables on the left.
fn right(graph: &[u8]) -> Vec<u8> {
    let variables = [0, 1, 2].map(Element::Variable);
    let mut parts = Parts::of(&Rule::default());
    parts.types = vec![1, 1, 1];
    parts.left = encode::node(&node(mark::NONE, &variables));
    parts.right = graph.to_vec();
    parts.image()
}

fn one_node() -> Vec<u8> {
    field(0x20, &[0, 0])
}

fn loops(count: usize) -> Vec<u8> {
    [one_node(), field(0x21, &[0, 0, 0]).repeat(count)].concat()
}

fn node_of(payload: &[u8]) -> Vec<u8> {
    field(0x20, payload)
}

fn edge_of(payload: &[u8]) -> Vec<u8> {
    [one_node(), field(0x21, payload)].concat()
}

/// A constant, so many times.
fn constants(count: usize) -> Vec<u8> {
    field(0x30, &[0, 0, 0, 1]).repeat(count)
}

pub(super) fn images_of_graphs() -> Vec<Images> {
    let mut list = Vec::new();
    for (side, image) in SIDES {
        let graphs = form_of_items().into_iter();
        let graphs = graphs.chain(form_of_node()).chain(form_of_edge());
        for (name, accepted, refused) in graphs {
            list.push(images(
                format!("{side}: {name}"),
                &image(&accepted),
                &image(&refused),
            ));
        }
    }
    list
}

fn form_of_items() -> Vec<Images> {
    let node = one_node();
    let behind = |graph: Vec<u8>, bytes: &[u8]| [&graph[..], bytes].concat();
    vec![
        images("7 nodes", &node.repeat(6), &node.repeat(7)),
        images("7 edges", &loops(6), &loops(7)),
        images("node behind an edge", &loops(1), &behind(loops(1), &node)),
        images("tag 0x22", &loops(1), &behind(loops(1), &field(0x22, &[]))),
        images("tag 0x1f", &node, &behind(field(0x1f, &[0, 0]), &node)),
        images("byte behind the nodes", &node, &behind(node.clone(), &[0])),
        images("node longer than the graph", &node, &[0x20, 0, 3, 0, 0]),
    ]
}

fn form_of_node() -> Vec<Images> {
    let payloads = |name: &str, accepted: &[u8], refused: &[u8]| {
        images(name, &node_of(accepted), &node_of(refused))
    };
    let labelled = |count| [vec![0, 0], constants(count)].concat();
    vec![
        payloads("dashed node", &[4, 0], &[5, 0]),
        payloads("node mark 7", &[3, 0], &[7, 0]),
        payloads("node mark 255", &[0, 0], &[255, 0]),
        payloads("node root 2", &[0, 1], &[0, 2]),
        payloads("node root 255", &[0, 1], &[0, 255]),
        payloads("node without mark and root", &[0, 0], &[]),
        payloads("node without root", &[0, 0], &[0]),
        payloads("node label of 9 elements", &labelled(limit::ELEMENTS), &labelled(limit::ELEMENTS + 1)),
    ]
}

fn form_of_edge() -> Vec<Images> {
    let payloads = |name: &str, accepted: &[u8], refused: &[u8]| {
        images(name, &edge_of(accepted), &edge_of(refused))
    };
    let labelled = |count| [vec![0, 0, 0], constants(count)].concat();
    vec![
        payloads("grey edge", &[5, 0, 0], &[4, 0, 0]),
        payloads("edge mark 7", &[3, 0, 0], &[7, 0, 0]),
        payloads("edge mark 255", &[0, 0, 0], &[255, 0, 0]),
        payloads("empty edge", &[0, 0, 0], &[]),
        payloads("edge of a mark alone", &[0, 0, 0], &[0]),
        payloads("edge without target", &[0, 0, 0], &[0, 0]),
        payloads("edge label of 9 elements", &labelled(limit::ELEMENTS), &labelled(limit::ELEMENTS + 1)),
    ]
}

pub(super) fn images_of_elements() -> Vec<Images> {
    let on_node = |element: &[u8]| right(&node_of(&[&[0, 0], element].concat()));
    let on_edge = |element: &[u8]| right(&edge_of(&[&[0, 0, 0], element].concat()));
    let mut list = Vec::new();
    for (name, accepted, refused) in elements() {
        list.push(images(
            format!("node label: {name}"),
            &on_node(&accepted),
            &on_node(&refused),
        ));
        list.push(images(
            format!("edge label: {name}"),
            &on_edge(&accepted),
            &on_edge(&refused),
        ));
    }
    list
}

fn elements() -> Vec<Images> {
    let mut elements = form_of_operand();
    elements.extend(form_of_two_operands("sum", 0x32));
    elements.extend(form_of_two_operands("difference", 0x33));
    elements
}

fn form_of_operand() -> Vec<Images> {
    let constant = constants(1);
    let variable = field(0x31, &[0]);
    vec![
        images("tag 0x2f", &constant, &field(0x2f, &[0, 0, 0, 1])),
        images("tag 0x34", &constant, &field(0x34, &[0, 0, 0, 1])),
        images(
            "byte behind the elements",
            &constant,
            &[&constant[..], &[0]].concat(),
        ),
        images("empty constant", &constant, &field(0x30, &[])),
        images("constant of 3 bytes", &constant, &field(0x30, &[0, 0, 1])),
        images(
            "constant of 5 bytes",
            &constant,
            &field(0x30, &[0, 0, 0, 0, 1]),
        ),
        images("empty variable", &variable, &field(0x31, &[])),
        images("variable of 2 bytes", &variable, &field(0x31, &[0, 0])),
        images("element longer than the label", &variable, &[0x31, 0, 2, 0]),
    ]
}

fn form_of_two_operands(words: &str, tag: u8) -> Vec<Images> {
    let constant = &constants(1)[..];
    let variable = &field(0x31, &[0])[..];
    let of = |operands: &[&[u8]]| field(tag, &operands.concat());
    let refused = |name: &str, operands: &[&[u8]]| {
        images(
            format!("{words} {name}"),
            &of(&[variable, constant]),
            &of(operands),
        )
    };
    let sum = &field(0x32, &constants(2))[..];
    let difference = &field(0x33, &constants(2))[..];
    vec![
        refused("of no operand", &[]),
        refused("of one operand", &[variable]),
        refused("of three operands", &[variable, constant, constant]),
        refused(
            "with a byte behind the operands",
            &[variable, constant, &[0]],
        ),
        refused("whose first operand is a sum", &[sum, constant]),
        refused(
            "whose second operand is a difference",
            &[constant, difference],
        ),
        refused(
            "with a constant of 3 bytes",
            &[variable, &field(0x30, &[0, 0, 1])],
        ),
        refused(
            "with a variable of 2 bytes",
            &[&field(0x31, &[0, 0]), constant],
        ),
        refused(
            "with an operand of tag 0x2f",
            &[variable, &field(0x2f, &[0, 0, 0, 1])],
        ),
    ]
}
