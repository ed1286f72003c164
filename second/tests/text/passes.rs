//! The runs that docs/PASSES.md shows: each program on the host of its section comes to the listing behind it.

use second::encode;
use second::layout::Core;
use second::listing::listing;
use second::text::{assemble, assemble_as, runner_input, Assembly, Procedures};

const PAGE: &str = include_str!("../../../docs/PASSES.md");

/// What stands in the code blocks of the page.
fn blocks() -> Vec<&'static str> {
    PAGE.split("```\n").skip(1).step_by(2).collect()
}

/// The listing of a text with a host section.
fn listed(text: &str) -> String {
    run(assemble("page", text).unwrap_or_else(|complaint| panic!("{complaint}\n{text}")))
}

fn run(assembly: Assembly) -> String {
    let host = assembly.host.expect("a host section");
    let input = runner_input(&assembly.program, &host.graph, &host.sizes).expect("legal sizes");
    listing(&encode::runner_input(&input))
}

#[test]
fn what_the_page_shows_is_what_a_run_gives() {
    let host = blocks()
        .into_iter()
        .find(|block| block.starts_with("host "));
    let host = host.expect("a host on the page");
    let mut shown = 0;
    for block in blocks() {
        let Some((program, listing)) = block.split_once("\nanswer ") else {
            continue;
        };
        assert_eq!(
            listed(&format!("{program}{host}")),
            format!("answer {listing}")
        );
        shown += 1;
    }
    assert_eq!(shown, 4, "runs on the page");
}

/// The run of procedures that the page shows has two calls.
#[test]
fn calls_written_out_cost_no_steps() {
    let block = blocks().into_iter().find(|block| block.contains("Step = "));
    let (program, listing) = block
        .and_then(|it| it.split_once("\nanswer "))
        .expect("a run");
    let steps = |text: &str| -> u32 {
        let word = text.split(' ').skip_while(|word| *word != "steps").nth(1);
        word.and_then(|word| word.parse().ok()).expect("a number")
    };
    let text = format!("{program}host fuel 1000 [ (1(R), 1) (2, 2) | ]");
    let assembly = assemble_as("page", &text, Procedures::WrittenOut, Core::Wide).expect("a legal text");
    let written_out = run(assembly);
    assert_eq!(steps(&written_out), steps(listing) - 2);
    let graph = |text: &str| text.split_once('\n').expect("lines").1.to_string();
    assert_eq!(graph(&written_out), graph(listing));
}

/// The clause is what each of them hangs on.
#[test]
fn the_other_mode_gives_what_the_page_says() {
    let host = "host fuel 1000 [ (1(R), 1) (2, 2) | ]";
    let listed = |main: &str, rule: &str| listed(&format!("Main = {main}\n{rule}\n{host}"));
    let mark = "mark(x: list) [ (n1, x) | ] => [ (n1, x # red) | ] interface = {n1}";
    let marked = listed("mark!", &format!("{mark} roots = preserving"));
    assert!(marked.ends_with("node 0 red root 1\nnode 1 red plain 2\n"));
    let init = "init(x: list) [ (n1, x) | ] => [ (n1(R), x) | ] interface = {n1}";
    assert!(listed("init!", init).ends_with("node 0 none root 1\nnode 1 none root 2\n"));
    let once = listed("init", &format!("{init} roots = preserving"));
    assert!(once.ends_with("node 0 none root 1\nnode 1 none plain 2\n"));
    let prune = "prune(x: list) [ (n1, x) | ] => [ | ] interface = {}";
    assert!(listed("prune!", prune).ends_with("records 1\nnode 0 none root 1\n"));
}
