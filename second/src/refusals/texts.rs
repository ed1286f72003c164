//! The refusals of the calls import and export.

use super::slots::{damages, Damage, Zeros};
use super::text_pairs::{OF_GRAMMAR, OF_NAMES};
use super::{accepted_run, refusal, Refusal, UNTOUCHED};
use crate::layout::{place, Layout};
use crate::text_graph::{read, ExportCall, ImportCall};

/// The import of a text to tables of so many node and edge slots, of bytes that a change shows in.
pub fn import_to(layout: &Layout, text: &[u8], (nodes, edges): (usize, usize)) -> ImportCall {
    ImportCall {
        text: text.to_vec(),
        nodes: vec![UNTOUCHED; nodes * layout.node_length()],
        edges: vec![UNTOUCHED; edges * layout.edge_length()],
    }
}

/// The same to as many slots as the text's graph takes, and to one of each where it is refused.
pub fn import_of(layout: &Layout, text: &[u8]) -> ImportCall {
    let slots = read(layout, text).map_or((1, 1), |host| (host.nodes.len(), host.edges.len()));
    import_to(layout, text, slots)
}

/// Two nodes and two edges, with labels of at most one atom.
const ACCEPTED: &[u8] = b"[ (a(R), 7 # red) (b, empty) | (e, a, b, -1 # dashed) (f, b, b, empty) ]";

/// The refusals of import at a layout, by number.
pub fn of_import(layout: &Layout) -> Vec<Refusal<ImportCall>> {
    let mut refusals = import_lengths(layout);
    for (refused, accepted) in OF_GRAMMAR.concat() {
        refusals.extend(twins(layout, 22, refused, accepted));
    }
    for (refused, accepted) in OF_NAMES {
        refusals.extend(twins(layout, 23, refused, accepted));
    }
    for (refused, accepted) in long_names() {
        refusals.extend(twins(layout, 23, &refused, &accepted));
    }
    for (refused, accepted) in unfit_items(layout) {
        refusals.extend(twins(layout, 24, &refused, &accepted));
    }
    refusals.extend(too_few_slots(layout));
    refusals
}

/// A text that this number refuses beside one that is taken, to as many slots; nothing where the layout can't hold the latter.
fn twins(layout: &Layout, answer: u32, refused: &str, accepted: &str) -> Option<Refusal<ImportCall>> {
    read(layout, accepted.as_bytes()).ok()?;
    let accepted = import_of(layout, accepted.as_bytes());
    let call = ImportCall { text: refused.as_bytes().to_vec(), ..accepted.clone() };
    Some(refusal(&format!("{refused:.80}"), answer, accepted, call))
}

/// Names of hundreds of bytes, which are equal or differ in the last one.
fn long_names() -> Vec<(String, String)> {
    let name = "name_of_a_node_".repeat(20);
    vec![
        (format!("[({name},1)({name},1)|]"), format!("[({name},1)({name}1,1)|]")),
        (format!("[({name}1,1)|(e,{name}1,{name}2,1)]"), format!("[({name}1,1)|(e,{name}1,{name}1,1)]")),
        (format!("[(a,1)|({name},a,a,1)({name},a,a,1)]"), format!("[(a,1)|({name},a,a,1)(x{name},a,a,1)]")),
    ]
}

/// An integer that 32 bits don't hold, and one that they do.
const INTEGERS: [(&str, &str); 7] = [
    ("2147483648", "2147483647"),
    ("-2147483649", "-2147483648"),
    ("4294967295", "429496729"),
    ("4294967296", "0"),
    ("-4294967296", "-0"),
    ("9999999999", "999999999"),
    ("18446744073709551616", "1844674407"),
];

/// The number 24: integers, labels and marks that no table of a layout holds, on nodes and on edges.
fn unfit_items(layout: &Layout) -> Vec<(String, String)> {
    let mut labels: Vec<(String, String)> = INTEGERS.iter().map(|(refused, taken)| (refused.to_string(), taken.to_string())).collect();
    let (zeros, nines) = ("0".repeat(300), "9".repeat(300));
    labels.push((nines, zeros.clone()));
    labels.push((format!("{zeros}2147483648"), format!("{zeros}2147483647")));
    labels.push((format!("-{zeros}2147483649"), format!("-{zeros}2147483648")));
    let of_atoms = |atoms: usize| vec!["3"; atoms].join(":");
    labels.extend([1, 2, 8].map(|more| (of_atoms(layout.atoms + more), of_atoms(layout.atoms))));
    let node = |label: &str| format!("[(a,{label})|]");
    let edge = |label: &str| format!("[(a,1)|(e,a,a,{label})]");
    let mut pairs = vec![(node("1#dashed"), node("1#grey")), (edge("1#grey"), edge("1#dashed"))];
    for (refused, taken) in labels {
        pairs.push((node(&refused), node(&taken)));
        pairs.push((edge(&refused), edge(&taken)));
    }
    pairs
}

/// A text of so many nodes and so many edges, with short names; the first node is `0`.
pub fn text_of_items(nodes: usize, edges: usize) -> String {
    let nodes: String = (0..nodes).map(|number| format!("({number:x},1)")).collect();
    let edges: String = (0..edges).map(|number| format!("({number:x},0,0,1)")).collect();
    format!("[{nodes}|{edges}]")
}

/// The number 24: tables of fewer slots than the text lists items, and texts of an item more than any table has slots.
fn too_few_slots(layout: &Layout) -> Vec<Refusal<ImportCall>> {
    let few = |name: &str, items: (usize, usize), slots: (usize, usize)| {
        let text = text_of_items(items.0, items.1).into_bytes();
        refusal(name, 24, import_to(layout, &text, items), import_to(layout, &text, slots))
    };
    let (nodes, edges) = (layout.most_nodes, layout.most_edges);
    let over = |name: &str, items: (usize, usize), most: (usize, usize)| {
        let text = |items: (usize, usize)| text_of_items(items.0, items.1).into_bytes();
        refusal(name, 24, import_to(layout, &text(most), most), import_to(layout, &text(items), most))
    };
    vec![
        few("a node more than slots", (2, 2), (1, 2)),
        few("an edge more than slots", (2, 2), (2, 1)),
        few("a node and no slots", (1, 0), (0, 0)),
        few("an edge and no slots", (1, 1), (1, 0)),
        few("more of both", (3, 3), (1, 1)),
        over("more nodes than any table has slots", (nodes + 1, 1), (nodes, 1)),
        over("more edges than any table has slots", (1, edges + 1), (1, edges)),
    ]
}

/// The numbers 10 and 11 of import.
fn import_lengths(layout: &Layout) -> Vec<Refusal<ImportCall>> {
    let accepted = import_to(layout, ACCEPTED, (3, 3));
    let with = |edit: &dyn Fn(&mut ImportCall)| {
        let mut call = accepted.clone();
        edit(&mut call);
        call
    };
    let mut refusals = Vec::new();
    for (words, change) in changed_lengths(layout.node_length()) {
        let refused = with(&|call| change_length(&mut call.nodes, change));
        refusals.push(refusal(&format!("node table {words}"), 10, accepted.clone(), refused));
    }
    for (words, change) in changed_lengths(layout.edge_length()) {
        let refused = with(&|call| change_length(&mut call.edges, change));
        refusals.push(refusal(&format!("edge table {words}"), 11, accepted.clone(), refused));
    }
    let (nodes, edges) = (layout.most_nodes, layout.most_edges);
    let to = |slots: (usize, usize)| import_to(layout, ACCEPTED, slots);
    refusals.push(refusal("a node slot too many", 10, to((nodes, 2)), to((nodes + 1, 2))));
    refusals.push(refusal("an edge slot too many", 11, to((2, edges)), to((2, edges + 1))));
    refusals
}

/// Lengths that are no multiple of a slot, in words and by the bytes that are more or less than some slots.
fn changed_lengths(slot: usize) -> [(&'static str, isize); 3] {
    [("with a byte more", 1), ("with a byte less", -1), ("with all but a byte of a slot more", slot as isize - 1)]
}

fn change_length(table: &mut Vec<u8>, change: isize) {
    let length = table.len().checked_add_signed(change);
    table.resize(length.expect("a table of some slots can lose a byte"), 0);
}

/// An import that is refused for each of these numbers of 10, 11, 22, 23 and 24, and for no other.
pub fn import_refused_for(layout: &Layout, numbers: &[u32]) -> ImportCall {
    let given = |number: u32, broken: &'static str, whole: &'static str| if numbers.contains(&number) { broken } else { whole };
    let atom = given(24, "2147483648", "2147483647");
    let end = given(23, "b", "a");
    let behind = given(22, "|", "");
    let text = format!("[ (a, {atom}) | (e, a, {end}, empty) ]{behind}");
    let mut call = import_to(layout, text.as_bytes(), (2, 2));
    if numbers.contains(&10) {
        call.nodes.push(0);
    }
    if numbers.contains(&11) {
        call.edges.push(0);
    }
    call
}

/// The export of tables to a buffer of so many bytes that a change shows in.
pub fn export_to(nodes: &[u8], edges: &[u8], bytes: usize) -> ExportCall {
    ExportCall { nodes: nodes.to_vec(), edges: edges.to_vec(), buffer: vec![UNTOUCHED; bytes] }
}

/// Nodes 0 and 2 of three slots live, edges 0 and 2 of three likewise, and a buffer that is long enough.
fn accepted_export(layout: &Layout) -> ExportCall {
    let host = accepted_run(layout);
    export_to(&host.nodes, &host.edges, 100)
}

fn export_with(layout: &Layout, edit: impl Fn(&mut ExportCall)) -> ExportCall {
    let mut call = accepted_export(layout);
    edit(&mut call);
    call
}

/// The refusals of export at a layout, by number.
pub fn of_export(layout: &Layout) -> Vec<Refusal<ExportCall>> {
    let mut refusals = export_lengths(layout);
    let broken = |name: &str, edit: &dyn Fn(&mut ExportCall)| refusal(name, 15, accepted_export(layout), export_with(layout, edit));
    let broken_by = |damage: &Damage| broken(&damage.name, &|call| damage.apply(&mut call.nodes, &mut call.edges));
    refusals.extend(damages(layout, layout.atoms, Zeros::OneOfAnAtom).iter().map(broken_by));
    refusals.push(broken("live edges and no node slots", &|call| call.nodes.clear()));
    refusals.extend(short_buffers(layout));
    refusals
}

/// The numbers 10 and 11 of export.
fn export_lengths(layout: &Layout) -> Vec<Refusal<ExportCall>> {
    let mut refusals = Vec::new();
    let mut push = |name: &str, answer: u32, edit: &dyn Fn(&mut ExportCall)| {
        refusals.push(refusal(name, answer, accepted_export(layout), export_with(layout, edit)));
    };
    for (words, change) in changed_lengths(layout.node_length()) {
        push(&format!("node table {words}"), 10, &|call| change_length(&mut call.nodes, change));
    }
    for (words, change) in changed_lengths(layout.edge_length()) {
        push(&format!("edge table {words}"), 11, &|call| change_length(&mut call.edges, change));
    }
    let free = |nodes: usize, edges: usize| export_to(&vec![0; nodes * layout.node_length()], &vec![0; edges * layout.edge_length()], 8);
    let (nodes, edges) = (layout.most_nodes, layout.most_edges);
    refusals.push(refusal("a node slot too many", 10, free(nodes, 0), free(nodes + 1, 0)));
    refusals.push(refusal("an edge slot too many", 11, free(0, edges), free(0, edges + 1)));
    refusals
}

/// The number 25: buffers of a byte less than the text, and of none, beside those of its length.
fn short_buffers(layout: &Layout) -> Vec<Refusal<ExportCall>> {
    let accepted = accepted_export(layout);
    let hosts = [(accepted.nodes, accepted.edges), (vec![], vec![]), (vec![0; layout.node_length()], vec![])];
    let mut refusals = Vec::new();
    for (nodes, edges) in hosts {
        let length = export_to(&nodes, &edges, 0).outcome(layout).length;
        for bytes in [0, 1, length / 2, length - 1] {
            let name = format!("a buffer of {bytes} bytes for {length}");
            refusals.push(refusal(&name, 25, export_to(&nodes, &edges, length), export_to(&nodes, &edges, bytes)));
        }
    }
    refusals
}

/// An export that is refused for each of these numbers of 10, 11, 15 and 25, and for no other.
pub fn export_refused_for(layout: &Layout, numbers: &[u32]) -> ExportCall {
    let mut call = accepted_export(layout);
    if numbers.contains(&15) {
        call.edges[place::STATE] = 2;
    }
    if numbers.contains(&10) {
        call.nodes.pop();
    }
    if numbers.contains(&11) {
        call.edges.push(0);
    }
    if numbers.contains(&25) {
        call.buffer.truncate(5);
    }
    call
}
