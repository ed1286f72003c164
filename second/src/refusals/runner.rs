//! Inputs that the runner refuses.

use super::Refusal;
use crate::encode::{self, field, RunnerInput};
use crate::listing::{INPUT_BYTES, INPUT_RECORDS};
use crate::tree::{mark, Command};

/// Inputs on which the runner prints `input refused`, each beside one that it reads. No call is made, so the
/// answer has no meaning here.
pub fn of_runner() -> Vec<Refusal<Vec<u8>>> {
    let mut refusals = wrong_fields();
    refusals.extend(wrong_numbers());
    refusals.extend(wrong_lengths());
    refusals
}

fn refused(name: impl Into<String>, refused: Vec<u8>) -> Refusal<Vec<u8>> {
    Refusal {
        name: name.into(),
        accepted: runner_fields().concat(),
        refused,
        answer: 0,
    }
}

/// The bytes of the legal fields after an edit.
fn with(edit: impl Fn(&mut Vec<Vec<u8>>)) -> Vec<u8> {
    let mut fields = runner_fields();
    edit(&mut fields);
    fields.concat()
}

/// One node with a loop.
fn runner_fields() -> Vec<Vec<u8>> {
    encode::runner_fields(&RunnerInput {
        nodes: encode::node_slot(mark::GREY, true, &[7, -7]).to_vec(),
        edges: encode::edge_slot(mark::DASHED, 0, 0, &[1, 2, 3]).to_vec(),
        records: INPUT_RECORDS,
        fuel: 100,
        program: encode::command(&Command::Skip),
    })
}

fn wrong_fields() -> Vec<Refusal<Vec<u8>>> {
    let mut list = Vec::new();
    for number in 0..5 {
        let tag = number + 1;
        list.push(refused(
            format!("no field {tag}"),
            with(|f| drop(f.remove(number))),
        ));
        let twice = with(|f| f.insert(number, f[number].clone()));
        list.push(refused(format!("field {tag} twice"), twice));
        list.push(refused(
            format!("tag 6 for field {tag}"),
            with(|f| f[number][0] = 6),
        ));
    }
    for number in 0..4 {
        let name = format!("field {} behind the next", number + 1);
        list.push(refused(name, with(|f| f.swap(number, number + 1))));
    }
    list.push(refused(
        "byte behind the program",
        with(|f| f.push(vec![0])),
    ));
    list.push(refused(
        "field behind the program",
        with(|f| f.push(field(6, &[]))),
    ));
    list
}

fn wrong_numbers() -> Vec<Refusal<Vec<u8>>> {
    let mut list = Vec::new();
    for length in [0, 1, 3] {
        let name = format!("number of records in {length} bytes");
        list.push(refused(
            name,
            with(|f| f[2] = field(0x03, &vec![0; length])),
        ));
    }
    for length in [0, 3, 5] {
        let name = format!("fuel in {length} bytes");
        list.push(refused(
            name,
            with(|f| f[3] = field(0x04, &vec![0; length])),
        ));
    }
    for records in [INPUT_RECORDS + 1, u16::MAX] {
        let name = format!("{records} records");
        list.push(refused(
            name,
            with(|f| f[2] = field(0x03, &records.to_be_bytes())),
        ));
    }
    list
}

fn wrong_lengths() -> Vec<Refusal<Vec<u8>>> {
    let legal = runner_fields().concat();
    let cut = |length: usize| {
        refused(
            format!("the first {length} bytes"),
            legal[..length].to_vec(),
        )
    };
    let mut list: Vec<Refusal<Vec<u8>>> = (0..legal.len()).map(cut).collect();
    list.push(Refusal {
        name: "65,537 bytes".into(),
        accepted: input_of_bytes(INPUT_BYTES),
        refused: input_of_bytes(INPUT_BYTES + 1),
        answer: 0,
    });
    list
}

/// The five fields in so many bytes, with a program of zeros.
fn input_of_bytes(bytes: usize) -> Vec<u8> {
    with(|f| {
        let others: usize = f[..4].iter().map(Vec::len).sum();
        f[4] = field(0x05, &vec![0; bytes - others - 3]);
    })
}
