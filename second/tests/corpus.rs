//! The stored corpus is what its seed and the published programs give, its listings are what the second interpreter gives, and
//! running it exercises everything.

mod ends;

use ends::Ends;
use second::corpus::{
    corpus, drawn_corpus, drawn_images, fixed_count, image, images, joined, legal_program, listings, of_core, small_images, split,
    stored_images, Figures, Image, Statistics, STORED_COUNT, STORED_SEED as SEED,
};
use second::encode;
use second::families::{assembled, PROGRAMS};
use second::layout::Core;
use second::listing::{call_of, listing, read_input};
use second::random::Random;
use second::text::grouped;
use second::tree::{Mode, Program};
use second::{decode, depth, placement, references};

/// A file of the stored corpus: the test program reads the images and must write the listings.
fn stored(name: &str) -> Vec<u8> {
    let path = format!("{}/../crates/corpus/{name}", env!("CARGO_MANIFEST_DIR"));
    std::fs::read(&path).unwrap_or_else(|error| panic!("{path}: {error}"))
}

#[test]
fn the_stored_corpus_is_what_the_seed_and_the_programs_give() {
    let made = stored_images();
    let corpus = stored("stdin");
    let parts = split(&corpus).unwrap();
    let same = made
        .iter()
        .zip(&parts)
        .position(|(made, stored)| made != stored);
    assert_eq!(same, None, "the first image that differs");
    assert_eq!(corpus, joined(&made));
}

#[test]
fn the_stored_listings_are_what_the_interpreter_gives() {
    let corpus = stored("stdin");
    let text = String::from_utf8(stored("stdout")).unwrap();
    let mut rest = text.as_str();
    for (index, image) in split(&corpus).unwrap().into_iter().enumerate() {
        let given = image.listing();
        match rest.strip_prefix(given.as_str()) {
            Some(behind) => rest = behind,
            None => panic!("image {index} gives\n{given}but stored is\n{}", head(rest)),
        }
    }
    assert_eq!(rest, "", "listings behind the last image");
}

/// The first lines of a text.
fn head(text: &str) -> String {
    text.lines()
        .take(20)
        .map(|line| format!("{line}\n"))
        .collect()
}

#[test]
fn the_stored_corpus_exercises_everything() {
    let corpus = stored("stdin");
    assert!(corpus.len() <= 3_700_000, "{} bytes", corpus.len());
    let Figures { wide, small } = Figures::of(&split(&corpus).unwrap());
    for answer in [0, 1, 2, 3, 4, 5, 6, 10, 11, 13, 14, 15, 16, 17, 18, 19] {
        assert!(wide.answers.contains_key(&answer), "answer {answer} doesn't occur");
    }
    for counter in &wide.counters {
        assert!(counter.total > 0, "{} is never exercised", counter.name);
    }
    assert_results_and_fails(&wide);
    assert_results_and_fails(&small);
}

fn assert_results_and_fails(figures: &Statistics) {
    assert!(figures.refused > 0, "no input is refused");
    assert!(figures.answers[&0] * 100 >= figures.images * 45, "too few results");
    assert!(figures.answers[&1] * 100 >= figures.images * 8, "too few fails");
    let applying = figures.counter("applications").images;
    assert!(applying * 100 >= figures.started * 60, "too few runs apply a rule");
}

/// Counters of what no label of one atom has, and of what drawn images of the small core have seldom.
fn is_for_the_wide_core(name: &str) -> bool {
    let counted = ["left elements", "right elements", "variable atoms", "list variable atoms", "node label atoms", "edge label atoms"];
    let of_length = counted.iter().find_map(|words| name.strip_prefix(words)?.trim().parse::<usize>().ok());
    let seldom = ["loop, in-degree", "refused for an element", "foreign tables, answer 11"];
    of_length.is_some_and(|length| length > 1)
        || name.strip_prefix("right label atoms ").is_some_and(|atoms| atoms.parse::<usize>().unwrap() > 3)
        || seldom.iter().any(|words| name.starts_with(words))
}

#[test]
fn the_stored_corpus_exercises_the_small_core() {
    let Figures { small, .. } = Figures::of(&split(&stored("stdin")).unwrap());
    assert!(small.images >= 700, "{} images", small.images);
    let least = [(0, 300), (1, 70), (2, 25), (3, 15), (4, 15), (5, 15), (6, 50), (12, 15)];
    for (answer, least) in least {
        assert!(small.answers[&answer] >= least, "answer {answer}: {:?}", small.answers);
    }
    for answer in [10, 11, 13, 14, 15, 16, 17, 18, 19] {
        assert!(small.answers.contains_key(&answer), "answer {answer} doesn't occur");
    }
    for counter in small.counters.iter().filter(|counter| !is_for_the_wide_core(&counter.name)) {
        assert!(counter.total > 0, "{} is never exercised", counter.name);
    }
    assert!(small.counter("right label atoms 2").images >= 30);
}

#[test]
fn no_application_of_the_stored_corpus_leaves_an_edge_on_a_free_node() {
    let corpus = stored("stdin");
    let mut ends = Ends::default();
    for image in split(&corpus).unwrap() {
        if let Some(input) = read_input(&image.bytes) {
            let layout = image.core.layout();
            call_of(layout, &input).outcome_at(layout, &mut ends);
        }
    }
    assert!(ends.applications >= 10_000, "{}", ends.applications);
}

#[test]
fn the_stored_corpus_reaches_the_limits() {
    let images = split(&stored("stdin")).unwrap();
    let starts = |answer: &str| {
        images
            .iter()
            .any(|image| image.bytes.len() == 65_535 && image.listing().starts_with(answer))
    };
    let inputs = |core: Core| {
        let of_core = images.iter().filter(move |image| image.core == core);
        of_core.filter_map(|image| read_input(&image.bytes)).collect::<Vec<_>>()
    };
    let wide = inputs(Core::Wide);
    assert!(wide
        .iter()
        .any(|input| input.nodes.len() == 512 * 36 && input.edges.len() == 1024 * 40));
    assert!(wide.iter().any(|input| input.program.len() == 8192));
    assert!(wide.iter().any(|input| input.fuel == 1_000_000));
    assert!(wide.iter().any(|input| input.records == 1024));
    assert!(starts("answer 14") && (starts("answer 10") || starts("answer 11")));
    let small = inputs(Core::Small);
    assert!(small
        .iter()
        .any(|input| input.nodes.len() == 128 * 8 && input.edges.len() == 255 * 10));
    assert!([255, 256, 1024].iter().all(|records| small.iter().any(|input| input.records == *records)));
}

#[test]
fn every_published_program_is_among_the_small_images() {
    let images = split(&stored("stdin")).unwrap();
    let small = images.iter().filter(|image| image.core == Core::Small);
    let programs: Vec<Vec<u8>> = small.filter_map(|image| Some(read_input(&image.bytes)?.program)).collect();
    for published in PROGRAMS {
        let program = encode::program(&assembled(&published));
        let hosts = programs.iter().filter(|found| **found == program);
        assert_eq!(hosts.count(), 5, "{}", published.name);
    }
}

#[test]
fn the_page_beside_the_corpus_has_its_figures() {
    let corpus = stored("stdin");
    let page = String::from_utf8(stored("README.md")).unwrap();
    let images = split(&corpus).unwrap();
    let figures = Figures::of(&images).to_string();
    assert!(page.contains(&figures), "the figures are\n{figures}");
    let fixed = format!("The first {} images", grouped(fixed_count() as usize));
    assert!(page.contains(&fixed), "the page should say: {fixed}");
    let small = images.iter().filter(|image| image.core == Core::Small).count() as u64;
    let published = images.len() as u64 - small - STORED_COUNT;
    for words in [format!("The next {published} images"), format!("The last {small} images")] {
        assert!(page.contains(&words), "the page should say: {words}");
    }
}

/// Answer, steps and records of cases 1 to 15 and P of document 01; case 4 has two.
const CASES: [(u32, u32, u32); 17] = [
    (0, 1, 0),
    (2, 0, 0),
    (2, 1000, 0),
    (0, 2, 0),
    (0, 2, 0),
    (1, 1, 0),
    (0, 1, 1),
    (1, 1, 0),
    (0, 3, 0),
    (0, 3, 1),
    (0, 4, 0),
    (0, 4, 1),
    (0, 1, 2),
    (3, 1, 0),
    (6, 1, 0),
    (1, 1, 0),
    (0, 3, 4),
];

#[test]
fn a_corpus_begins_with_the_cases() {
    for (index, (answer, steps, records)) in CASES.into_iter().enumerate() {
        let text = listing(&image(SEED, index as u64));
        let first = format!("answer {answer} steps {steps} records {records}\n");
        assert!(text.starts_with(&first), "image {index} gives\n{text}");
    }
    let last = listing(&image(SEED, CASES.len() as u64 - 1));
    let graph = "node 0 red plain 5\nnode 1 blue plain 12\nedge 0 1 0 none\n";
    assert!(last.ends_with(graph), "case P gives\n{last}");
}

/// Programs of drawn images.
fn drawn_programs() -> Vec<Vec<u8>> {
    let drawn = drawn_images(Core::Wide, SEED, 6000);
    let inputs = drawn.iter().filter_map(|image| read_input(image));
    inputs.map(|input| input.program).collect()
}

/// How many of the programs are damaged so: what was expected there, and the tag that stands there.
fn damages(programs: &[Vec<u8>], found: impl Fn(&str, Option<u8>) -> bool) -> usize {
    let damaged = |program: &&Vec<u8>| {
        decode::program(program)
            .is_err_and(|damage| found(&damage.expected, program.get(damage.at).copied()))
    };
    programs.iter().filter(damaged).count()
}

/// Guarded commands as the drawn images have them: with a byte other than 0 and 1, and with a tag that no command has.
#[test]
fn drawn_images_have_damaged_guarded_commands() {
    let programs = drawn_programs();
    let bad_byte = damages(&programs, |expected, _| {
        expected.starts_with("1 where a successful guard's")
    });
    let bad_tag = damages(&programs, |expected, tag| {
        let other = tag.is_some_and(|tag| [0x52, 0x53, 0x5A].contains(&tag));
        expected.starts_with("a command: ") && other
    });
    assert!(bad_byte >= 2 && bad_tag >= 2, "{bad_byte} {bad_tag}");
}

/// Rules of each mode, and modes that are damaged: in the byte, in the length, by the place, by what stands behind.
#[test]
fn drawn_images_have_modes_and_damaged_ones() {
    let programs = drawn_programs();
    let having = |mode: Option<Mode>| {
        let legal = programs
            .iter()
            .filter_map(|image| decode::program(image).ok());
        let has = |program: &Program| program.rules.iter().any(|rule| rule.mode == mode);
        legal.filter(has).count()
    };
    let least = [
        (None, 4000),
        (Some(Mode::Reflecting), 600),
        (Some(Mode::Preserving), 1800),
    ];
    for (mode, least) in least {
        assert!(having(mode) >= least, "{mode:?}: {}", having(mode));
    }
    let of = |start: &str| damages(&programs, |expected, _| expected.starts_with(start));
    let found = [
        of("a mode: "),
        of("one byte and nothing more"),
        of("the end of the rule behind its mode"),
        damages(&programs, |expected, tag| {
            expected.starts_with("a field with tag 0x1") && tag == Some(0x16)
        }),
    ];
    assert!(found.iter().all(|count| *count >= 2), "{found:?}");
}

/// Procedures and calls that are damaged in their form: in place, number and payload of procedures, in the length of calls.
#[test]
fn drawn_images_have_procedures_and_damaged_ones() {
    let programs = drawn_programs();
    let legal = programs
        .iter()
        .filter_map(|image| decode::program(image).ok());
    let having = legal
        .filter(|program| !program.procedures.is_empty())
        .count();
    assert!(having >= 1500, "{having}");
    let of = |start: &str| damages(&programs, |expected, _| expected.starts_with(start));
    let at = |start: &str, byte: u8| {
        damages(&programs, |expected, found| {
            expected.starts_with(start) && found == Some(byte)
        })
    };
    let found = [
        of("at most 16 procedures"),
        at("nothing behind the command", 0x17),
        at("a command: ", 0x10),
        at("a command: ", 0x17),
        at("one command and nothing more", 0x55),
        of("the number of a procedure"),
        at("one byte and nothing more", 0),
    ];
    assert!(found.iter().all(|count| *count >= 2), "{found:?}");
}

/// Long labels in hosts and rules that are drawn, right labels of the most atoms and of one too many, and what is refused.
#[test]
fn drawn_images_have_long_labels_and_damaged_ones() {
    let drawn = drawn_images(Core::Wide, SEED, 6000);
    let figures = Statistics::of(Core::Wide, drawn.iter().map(Vec::as_slice));
    let least = |names: &[&str], lengths: std::ops::RangeInclusive<u32>, least: u64| {
        for name in names {
            for length in lengths.clone() {
                let counter = figures.counter(&format!("{name} {length}"));
                assert!(counter.images >= least, "{counter:?}");
            }
        }
    };
    least(&["node label atoms", "edge label atoms"], 5..=8, 100);
    least(&["left elements", "right elements"], 5..=8, 100);
    least(&["list variable atoms", "right label atoms"], 5..=8, 100);
    least(&["right label atoms"], 9..=9, 30);
    for name in [
        "refused for an atom",
        "refused for an element",
        "foreign tables, answer 10",
        "foreign tables, answer 11",
        "foreign tables, answer 15",
    ] {
        assert!(figures.counter(name).images >= 2, "{:?}", figures.counter(name));
    }
}

/// Answers 17, 18 and 19 for what is wrong with calls.
#[test]
fn drawn_images_have_calls_that_are_refused() {
    let programs = drawn_programs();
    let read = programs
        .iter()
        .filter_map(|image| decode::program(image).ok());
    let (mut missing, mut outside, mut rings, mut deep) = (0, 0, 0, 0);
    for program in read {
        match references::check(&program) {
            Err(reason) => missing += u32::from(reason.contains("a call names procedure")),
            Ok(()) if !placement::check(&program) => {
                outside += u32::from(
                    !program
                        .procedures
                        .iter()
                        .all(|it| placement::breaks_are_placed(it, false)),
                );
            }
            Ok(()) => {
                let reason = depth::check(&program).err().map(|fault| fault.reason);
                rings += u32::from(reason.iter().any(|it| it.starts_with("a ring")));
                deep += u32::from(reason.iter().any(|it| !it.starts_with("a ring")));
            }
        }
    }
    let found = [missing, outside, rings, deep];
    assert!(found.iter().all(|count| *count >= 5), "{found:?}");
}

/// Images that are drawn for the small core: every answer, damaged tables and what is seldom in the stored corpus.
#[test]
fn drawn_images_of_the_small_core_have_every_answer() {
    let drawn = drawn_images(Core::Small, SEED, 6000);
    let figures = Statistics::of(Core::Small, drawn.iter().map(Vec::as_slice));
    for (answer, least) in [(0, 2500), (1, 600), (2, 100), (3, 100), (4, 100), (5, 100), (6, 300), (12, 50)] {
        assert!(figures.answers[&answer] >= least, "answer {answer}: {:?}", figures.answers);
    }
    for answer in [10, 11, 13, 15, 16, 17, 18, 19] {
        assert!(figures.answers[&answer] >= 5, "answer {answer}: {:?}", figures.answers);
    }
    for name in ["refused for an atom", "foreign tables, answer 10", "foreign tables, answer 15", "right label atoms 2"] {
        assert!(figures.counter(name).images >= 2, "{:?}", figures.counter(name));
    }
    for name in ["loop, in-degree 1", "loop, in-degree not 1", "variable atoms 0", "variable atoms 1"] {
        assert!(figures.counter(name).images >= 2, "{:?}", figures.counter(name));
    }
}

#[test]
fn an_image_depends_on_its_seed_and_index_alone() {
    let index = fixed_count() + 5;
    assert_eq!(image(7, index), images(7, index + 1)[index as usize]);
    assert_eq!(image(7, index), drawn_images(Core::Wide, 7, 6)[5]);
    assert_ne!(image(7, index), image(8, index));
    assert_eq!(image(7, 3), image(8, 3));
    let small = |seed: u64| drawn_images(Core::Small, seed, 4);
    assert_eq!(small(7), small(7));
    assert_ne!(small(7), small(8));
}

/// One drawn image in four is for the small core; the fixed ones of either core come before all drawn ones.
#[test]
fn a_corpus_has_images_of_both_cores() {
    let drawn = drawn_corpus(7, 8);
    let cores: Vec<Core> = drawn.iter().map(|image| image.core).collect();
    let four = [Core::Wide, Core::Wide, Core::Wide, Core::Small];
    assert_eq!(cores, [four, four].concat());
    assert_eq!(drawn[1].bytes, drawn_images(Core::Wide, 7, 2)[1]);
    assert_eq!(drawn[3].bytes, drawn_images(Core::Small, 7, 4)[3]);
    let wide = images(7, fixed_count());
    let fixed = wide.len() + small_images().len();
    let all = corpus(7, fixed as u64 + 8);
    assert_eq!(all[..wide.len()], of_core(Core::Wide, wide));
    assert_eq!(all[fixed..], drawn);
    assert_eq!(corpus(7, 3), all[..3]);
}

#[test]
fn legal_programs_are_legal() {
    let mut random = Random::new(SEED);
    for _ in 0..3000 {
        let program = legal_program(&mut random);
        let bytes = encode::program(&program);
        assert!(bytes.len() <= 8192, "{} bytes", bytes.len());
        assert_eq!(decode::program(&bytes).as_ref(), Ok(&program));
        assert_eq!(references::check(&program), Ok(()), "{program:?}");
        assert!(placement::check(&program), "{program:?}");
        assert!(depth::check(&program).is_ok(), "{program:?}");
    }
}

#[test]
fn a_corpus_splits_into_what_it_was_joined_from() {
    let mut made = of_core(Core::Wide, images(SEED, 40));
    made.extend(of_core(Core::Small, small_images()));
    let corpus = joined(&made);
    assert_eq!(corpus[..3], [6, 0, made[0].bytes.len() as u8]);
    assert_eq!(split(&corpus).unwrap(), made);
    assert_eq!(
        listings(&made[..1]),
        "answer 0 steps 1 records 0\nnode 0 none plain\n"
    );
}

/// Case 1 at the small core: one node of eight bytes, which the wide core refuses.
#[test]
fn the_tag_says_at_which_core_an_image_runs() {
    let [wide, small] = Core::BOTH.map(|core| Image { core, bytes: small_images()[0].clone() });
    assert_eq!(wide.listing(), "answer 10 steps 0 records 0\n");
    assert_eq!(small.listing(), "answer 0 steps 1 records 0\nnode 0 none plain\n");
    let corpus = joined(&[wide.clone(), small.clone()]);
    assert_eq!((corpus[0], corpus[3 + wide.bytes.len()]), (6, 8));
    assert_eq!(split(&corpus), Ok(vec![wide, small]));
}

#[test]
fn a_damaged_corpus_is_refused_with_its_place() {
    let refused = |bytes: &[u8]| split(bytes).unwrap_err();
    assert_eq!(split(&[]), Ok(vec![]));
    assert_eq!(
        refused(&[6, 0, 0, 7, 0, 0]),
        "byte 3: the tag 0x06 or 0x08 of an image expected"
    );
    assert_eq!(
        refused(&[8, 0]),
        "byte 0: a tag and two bytes of length expected"
    );
    assert_eq!(
        refused(&[8, 0, 2, 1]),
        "byte 0: an image of 2 bytes expected"
    );
}
