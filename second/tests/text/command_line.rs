//! The program `gp2` as it is called: files, standard streams, options and exit status.

use super::helpers::{CASE_P, EDGE, NODE};
use second::encode;
use second::listing::listing;
use std::fs;
use std::io::Write;
use std::path::PathBuf;
use std::process::{Command, Output, Stdio};

const CASE_P_HOST: &str = "[ (0, 5 # grey) (1, 7 # grey) | (0, 0, 1, empty) ]";
pub const CASE_P_LISTING: &str = "\
answer 0 steps 3 records 4
node 0 red plain 5
node 1 blue plain 12
edge 0 1 0 none
";
const CASE_P_SIZES: [&str; 8] = [
    "--fuel",
    "10",
    "--records",
    "8",
    "--nodes",
    "2",
    "--edges",
    "1",
];

/// An own directory for a test, with case P in it.
pub struct Place {
    directory: PathBuf,
}

impl Place {
    pub fn new(name: &str) -> Place {
        let directory = PathBuf::from(env!("CARGO_TARGET_TMPDIR")).join(format!("text-{name}"));
        let _ = fs::remove_dir_all(&directory);
        fs::create_dir_all(&directory).expect("a directory");
        let place = Place { directory };
        place.write("p.gp2", CASE_P.as_bytes());
        place.write("p.host", CASE_P_HOST.as_bytes());
        place
    }

    pub fn write(&self, file: &str, bytes: &[u8]) {
        fs::write(self.directory.join(file), bytes).expect("written");
    }

    pub fn read(&self, file: &str) -> Vec<u8> {
        fs::read(self.directory.join(file)).expect("read")
    }

    pub fn files(&self) -> Vec<String> {
        let entries = fs::read_dir(&self.directory).expect("a directory");
        let names = entries.map(|entry| entry.expect("an entry").file_name());
        let mut names: Vec<String> = names
            .map(|name| name.into_string().expect("text"))
            .collect();
        names.sort();
        names
    }

    pub fn gp2(&self, arguments: &[&str]) -> Output {
        self.gp2_with_input(arguments, b"")
    }

    /// Assembles case P with its host to `p.run`.
    pub fn assemble_case_p(&self) {
        self.assemble_case_p_at(&[]);
    }

    /// The same with more options.
    pub fn assemble_case_p_at(&self, options: &[&str]) {
        let files = ["asm", "p.gp2", "--host", "p.host", "-o", "p.run"];
        assert_done(&self.gp2(&[&files[..], &CASE_P_SIZES, options].concat()));
    }

    pub fn gp2_with_input(&self, arguments: &[&str], input: &[u8]) -> Output {
        let mut child = Command::new(env!("CARGO_BIN_EXE_gp2"))
            .args(arguments)
            .current_dir(&self.directory)
            .stdin(Stdio::piped())
            .stdout(Stdio::piped())
            .stderr(Stdio::piped())
            .spawn()
            .expect("gp2 starts");
        // A refusal may come before the input is read, and close it.
        let _ = child.stdin.take().expect("an input").write_all(input);
        child.wait_with_output().expect("gp2 ends")
    }
}

pub fn out(output: &Output) -> String {
    String::from_utf8(output.stdout.clone()).expect("text")
}

pub fn err(output: &Output) -> String {
    String::from_utf8(output.stderr.clone()).expect("text")
}

pub fn assert_done(output: &Output) {
    assert_eq!((output.status.code(), err(output).as_str()), (Some(0), ""));
}

/// Refused by what the system says behind this start.
fn assert_refused_by_system(output: &Output, start: &str) {
    assert_eq!(output.status.code(), Some(1));
    assert!(err(output).starts_with(start), "{}", err(output));
}

pub fn assert_refused(output: &Output, status: i32, message: &str) {
    assert_eq!(output.status.code(), Some(status), "{}", err(output));
    assert_eq!(err(output), format!("{message}\n"));
    assert_eq!(out(output), "");
}

#[test]
fn asm_writes_a_runner_image_that_runs_as_case_p() {
    let place = Place::new("runner");
    place.assemble_case_p();
    assert_eq!(listing(&place.read("p.run")), CASE_P_LISTING);
    assert_eq!(place.files(), ["p.gp2", "p.host", "p.run"]);
}

#[test]
fn asm_writes_a_program_image_without_a_host() {
    let place = Place::new("program");
    assert_done(&place.gp2(&["asm", "p.gp2", "-o", "p.image"]));
    let program = second::text::assemble_program("p", CASE_P).expect("legal");
    assert_eq!(place.read("p.image"), encode::program(&program));
}

#[test]
fn asm_keeps_procedures_unless_it_is_told_to_write_them_out() {
    let place = Place::new("procedures");
    place.write("p.gp2", b"Main = P; P P = skip; fail");
    assert_done(&place.gp2(&["asm", "p.gp2", "-o", "kept"]));
    assert_done(&place.gp2(&["asm", "--write-out", "p.gp2", "-o", "out"]));
    let body = [0x51, 0, 6, 0x55, 0, 0, 0x56, 0, 0];
    let calls = [0x51, 0, 8, 0x58, 0, 1, 0, 0x58, 0, 1, 0];
    assert_eq!(
        place.read("kept"),
        [&[0x17, 0, 9], &body[..], &calls].concat()
    );
    assert_eq!(
        place.read("out"),
        [&[0x51, 0, 18], &body[..], &body].concat()
    );
}

#[test]
fn asm_replaces_an_image_that_is_there() {
    let place = Place::new("replaces");
    place.write("p.image", b"old");
    assert_done(&place.gp2(&["asm", "p.gp2", "-o", "p.image"]));
    assert_eq!(place.read("p.image")[0], 0x10);
    assert_eq!(place.files(), ["p.gp2", "p.host", "p.image"]);
}

#[test]
fn standard_streams_stand_for_files() {
    let place = Place::new("streams");
    let output = place.gp2_with_input(&["asm", "-", "-o", "-"], CASE_P.as_bytes());
    assert_done(&output);
    assert_eq!(output.stdout[0], 0x10);
    let text = place.gp2_with_input(&["dis", "-"], &output.stdout);
    assert_done(&text);
    let again = place.gp2_with_input(&["asm", "-", "-o", "-"], &text.stdout);
    assert_eq!(again.stdout, output.stdout);
    assert_eq!(place.files(), ["p.gp2", "p.host"]);
}

#[test]
fn a_runner_image_comes_back_through_its_text() {
    let place = Place::new("back");
    place.assemble_case_p();
    let text = place.gp2(&["dis", "p.run"]);
    assert_done(&text);
    place.write("again.gp2", &text.stdout);
    assert_done(&place.gp2(&["asm", "again.gp2", "-o", "again.run"]));
    assert_eq!(place.read("again.run"), place.read("p.run"));
    let graph = place.gp2(&["dis", "p.run", "--host"]);
    assert_eq!(
        out(&graph),
        "[\n  (0, 5 # grey)\n  (1, 7 # grey)\n|\n  (0, 0, 1, empty)\n]\n"
    );
}

#[test]
fn options_go_before_the_numbers_of_a_host_section() {
    let place = Place::new("section");
    let source = format!("{CASE_P}\nhost fuel 10 records 8 {CASE_P_HOST}");
    place.write("both.gp2", source.as_bytes());
    assert_done(&place.gp2(&["asm", "both.gp2", "--fuel", "3", "-o", "both.run"]));
    let input = second::listing::read_input(&place.read("both.run")).expect("a runner image");
    assert_eq!((input.fuel, input.records), (3, 8));
    assert_eq!((input.nodes.len(), input.edges.len()), (18 * NODE, 17 * EDGE));
}

#[test]
fn a_refusal_names_the_place_and_leaves_the_image_alone() {
    let place = Place::new("refusal");
    place.write("bad.gp2", b"Main = a;\n  b or c\n");
    place.write("old.image", b"old");
    let output = place.gp2(&["asm", "bad.gp2", "-o", "old.image"]);
    let message = "`or` can't be held: an image has no choice between commands, expected `;`";
    assert_refused(&output, 1, &format!("bad.gp2:2:5: {message}"));
    assert_eq!(place.read("old.image"), b"old");
    assert_refused(
        &place.gp2(&["asm", "bad.gp2", "-o", "new.image"]),
        1,
        &format!("bad.gp2:2:5: {message}"),
    );
    assert_eq!(place.files(), ["bad.gp2", "old.image", "p.gp2", "p.host"]);
}

#[test]
fn a_refused_host_names_its_own_file() {
    let place = Place::new("host");
    place.write("bad.host", b"[ (0, 5)\n(0, 6) | ]");
    let output = place.gp2(&["asm", "p.gp2", "--host", "bad.host", "-o", "p.run"]);
    assert_refused(
        &output,
        1,
        "bad.host:2:2: the node `0` twice, expected each identifier once",
    );
    let output = place.gp2(&[
        "asm", "p.gp2", "--host", "p.host", "--nodes", "1", "-o", "p.run",
    ]);
    assert_refused(
        &output,
        1,
        "p.host: 1 node slots, expected from 2 (the host graph's) to 512",
    );
    assert_eq!(place.files(), ["bad.host", "p.gp2", "p.host"]);
}

#[test]
fn files_that_are_no_text_or_not_there() {
    let place = Place::new("files");
    place.write("bytes", b"Main =\n\xff");
    let output = place.gp2(&["asm", "bytes", "-o", "x"]);
    assert_refused(
        &output,
        1,
        "bytes:2:1: a byte that isn't UTF-8, expected text",
    );
    for arguments in [
        &["asm", "none", "-o", "x"][..],
        &["dis", "none"],
        &["dot", "none"],
        &["renew", "none", "-o", "x"],
        &["pack", "none", "-o", "x"],
        &["unpack", "none", "-o", "x"],
    ] {
        assert_refused_by_system(&place.gp2(arguments), "none: can't be read: ");
    }
    for file in ["none/x", "."] {
        let output = place.gp2(&["asm", "p.gp2", "-o", file]);
        assert_refused_by_system(&output, &format!("{file}: can't be written: "));
    }
}

#[test]
fn numbers_need_a_host_and_a_host_stands_once() {
    let place = Place::new("numbers");
    let output = place.gp2(&["asm", "p.gp2", "--fuel", "3", "-o", "x"]);
    assert_refused(
        &output,
        1,
        "gp2: --fuel, --records, --nodes and --edges are a host's, expected --host",
    );
    place.write(
        "both.gp2",
        format!("{CASE_P} host {CASE_P_HOST}").as_bytes(),
    );
    let output = place.gp2(&["asm", "both.gp2", "--host", "p.host", "-o", "x"]);
    assert_refused(
        &output,
        1,
        "both.gp2: has a host section, expected no --host beside it",
    );
}

/// Command lines, and what is wrong with each.
const MISUSES: &[(&[&str], &str)] = &[
    (
        &[],
        "no subcommand, expected asm, dis, dot, renew, pack, unpack or --help",
    ),
    (
        &["run"],
        "no subcommand `run`, expected asm, dis, dot, renew, pack, unpack or --help",
    ),
    (&["asm", "-o", "x"], "no PROGRAM, expected a file or -"),
    (&["asm", "p.gp2"], "no -o, expected the image's file or -"),
    (
        &["asm", "p.gp2", "-o"],
        "nothing behind `-o`, expected its value",
    ),
    (
        &["asm", "p.gp2", "q", "-o", "x"],
        "`q` beside another PROGRAM, expected one",
    ),
    (
        &["asm", "p.gp2", "-o", "x", "-o", "y"],
        "`y` beside another -o, expected one",
    ),
    (
        &["asm", "p.gp2", "--slots", "x"],
        "no option `--slots`, expected --host, --fuel, --records, --nodes, --edges, --core, --write-out or -o",
    ),
    (
        &["asm", "p.gp2", "--fuel", "1000001"],
        "--fuel: 1000001 is out of range, expected a number from 0 to 1000000",
    ),
    (
        &["asm", "p.gp2", "--fuel", "-1"],
        "--fuel: -1 is out of range, expected a number from 0 to 1000000",
    ),
    (
        &["asm", "p.gp2", "--records", "1025"],
        "--records: 1025 is out of range, expected a number from 0 to 1024",
    ),
    (
        &["asm", "p.gp2", "--nodes", "513"],
        "--nodes: 513 is out of range, expected a number from 0 to 512",
    ),
    (
        &["asm", "p.gp2", "--edges", "x"],
        "--edges: x is out of range, expected a number from 0 to 1024",
    ),
    (
        &["asm", "p.gp2", "--fuel", "1", "--fuel", "1"],
        "--fuel: given twice, expected once",
    ),
    (&["dis"], "no IMAGE, expected a file or -"),
    (&["dis", "x", "y"], "`y` beside another IMAGE, expected one"),
    (
        &["dis", "x", "--after"],
        "no option `--after`, expected --host or --core",
    ),
    (
        &["dot", "x", "--host"],
        "no option `--host`, expected --after or --core",
    ),
    (&["renew", "-o", "x"], "no OLD, expected a file or -"),
    (&["renew", "x"], "no -o, expected the image's file or -"),
    (
        &["renew", "x", "-o"],
        "nothing behind `-o`, expected its value",
    ),
    (
        &["renew", "x", "y", "-o", "z"],
        "`y` beside another OLD, expected one",
    ),
    (
        &["renew", "x", "--host", "-o", "y"],
        "no option `--host`, expected -o",
    ),
    (&["pack", "-o", "x"], "no IMAGE, expected a file or -"),
    (&["pack", "x", "--core", "small", "-o", "y"], "no option `--core`, expected -o"),
    (&["unpack", "-o", "x"], "no SMALL, expected a file or -"),
    (&["unpack", "x"], "no -o, expected the image's file or -"),
    (&["asm", "p.gp2", "--core", "tiny"], "--core: no core `tiny`, expected wide or small"),
    (&["dis", "x", "--core"], "nothing behind `--core`, expected its value"),
    (&["dot", "x", "--core", "small", "--core", "wide"], "--core: given twice, expected once"),
    (
        &["asm", "p.gp2", "--nodes", "129", "--core", "small"],
        "--nodes: 129 is out of range, expected a number from 0 to 128",
    ),
    (
        &["asm", "p.gp2", "--core", "small", "--edges", "256"],
        "--edges: 256 is out of range, expected a number from 0 to 255",
    ),
    (
        &["asm", "p.gp2", "--core", "small", "--records", "256"],
        "--records: 256 is out of range, expected a number from 0 to 255",
    ),
];

#[test]
fn command_lines_are_refused_with_status_2() {
    let place = Place::new("misuse");
    for (arguments, message) in MISUSES {
        let output = place.gp2(arguments);
        assert_refused(
            &output,
            2,
            &format!("gp2: {message} (gp2 --help says more)"),
        );
    }
    assert_eq!(place.files(), ["p.gp2", "p.host"]);
}

#[test]
fn help_is_printed_on_the_standard_output() {
    let place = Place::new("help");
    for arguments in [
        &["--help"][..],
        &["-h"],
        &["help"],
        &["asm", "--help"],
        &["dot", "-h"],
    ] {
        let output = place.gp2(arguments);
        assert_done(&output);
        for word in [
            "gp2 asm PROGRAM",
            "gp2 dis IMAGE",
            "gp2 dot IMAGE",
            "gp2 renew OLD -o NEW",
            "gp2 pack IMAGE -o SMALL",
            "gp2 unpack SMALL -o IMAGE",
            "--core small",
            "--write-out",
            "--after",
            "100000",
        ] {
            assert!(out(&output).contains(word), "{word}");
        }
    }
}

#[test]
fn dis_and_dot_refuse_damaged_images_with_status_1() {
    let place = Place::new("damaged");
    place.write("bad.image", &[0x55, 0, 1]);
    let output = place.gp2(&["dis", "bad.image"]);
    assert_refused(
        &output,
        1,
        "bad.image: offset 3, skip: expected a payload of 1 bytes; a run answers 16",
    );
    let output = place.gp2(&["dot", "bad.image"]);
    assert_refused(
        &output,
        1,
        "bad.image: offset 0: no host graph, expected a runner image (tag 0x01)",
    );
}

#[test]
fn dot_draws_before_and_after_the_run() {
    let place = Place::new("dot");
    place.assemble_case_p();
    let before = place.gp2(&["dot", "p.run"]);
    assert_done(&before);
    assert!(out(&before).contains("  n0 [xlabel=\"0\", label=\"5\", fillcolor=lightgrey];\n"));
    assert!(out(&before).contains("  n0 -> n1 [label=\"\"];\n"));
    let after = place.gp2(&["dot", "--after", "p.run"]);
    assert_done(&after);
    assert!(out(&after).contains("  n1 [xlabel=\"1\", label=\"12\", fillcolor=lightskyblue];\n"));
    assert!(out(&after).contains("  n1 -> n0 [label=\"\"];\n"));
    assert_done(&place.gp2(&[
        "asm", "p.gp2", "--host", "p.host", "--fuel", "1", "-o", "p.run",
    ]));
    let output = place.gp2(&["dot", "p.run", "--after"]);
    assert_refused(
        &output,
        1,
        "p.run: the run answers 2, expected a result (0) to draw",
    );
}
