//! Programs that differ only in wrapping give the same. Wrapping is sequences and skips: how commands are grouped into sequences,
//! and where skips stand beside others. Answer, tables, journal and records are equal, and so are the steps that enter no sequence,
//! no skip and no call.

#[path = "wrapping/acting.rs"]
mod acting;
#[path = "wrapping/acting_changes.rs"]
mod acting_changes;
mod common;
#[path = "wrapping/comparing.rs"]
mod comparing;
#[path = "wrapping/places.rs"]
mod places;
mod report;
#[path = "wrapping/rewrapping.rs"]
mod rewrapping;

use acting::{acting, Acting};
use acting_changes::{dropped, exchanged};
use common::{drafts, samples, Draft, Sample};
use comparing::Run;
use places::insides;
use rewrapping::{rewrapped, CHANGES};
use second::corpus::legal_program;
use second::random::Random;
use second::text::assemble_program;
use second::tree::{limit, Command, Program};
use second::{decode, depth, encode, placement, references};

/// What the compared pairs had in them.
#[derive(Debug, Default)]
struct Compared {
    /// Pairs by their answer.
    answers: [usize; 7],
    other_steps: usize,
    with_breaks: usize,
    with_failed_guards: usize,
    /// Pairs that are not compared, since the rewrapped run needs more fuel than it has.
    out_of_fuel: usize,
}

impl Compared {
    fn add(&mut self, first: &Run, second: &Run) {
        self.answers[first.outcome.answer as usize] += 1;
        self.other_steps += usize::from(first.steps() != second.steps());
        self.with_breaks += usize::from(first.entered.breaks > 0);
        self.with_failed_guards += usize::from(first.entered.after_failed_guards > 0);
    }
}

/// Whether a run started and was not out of fuel.
fn ended(answer: u32) -> bool {
    answer <= 6 && answer != 2
}

#[test]
fn programs_that_differ_only_in_wrapping_give_the_same() {
    let mut compared = Compared::default();
    for (index, sample) in samples().enumerate() {
        if !ended(sample.outcome().answer) {
            continue;
        }
        let random = &mut Random::of_index(13, index as u64);
        let program = decode::program(&sample.image).expect("an accepted image");
        let other = Sample {
            image: encode::program(&rewrapped(random, &program).0),
            fuel: random.between(20_000, 1_000_000) as u32,
            ..sample.clone()
        };
        let (first, second) = (Run::of(&sample), Run::of(&other));
        if second.outcome.answer == 2 {
            compared.out_of_fuel += 1;
            continue;
        }
        assert_eq!(second.common(), first.common(), "{program:#?}\n{other:#?}");
        compared.add(&first, &second);
    }
    for answer in [0, 1, 3, 4, 5, 6] {
        assert!(compared.answers[answer] >= 100, "{compared:?}");
    }
    assert!(compared.other_steps >= 1_000, "{compared:?}");
    assert!(compared.with_breaks >= 100, "{compared:?}");
    assert!(compared.with_failed_guards >= 100, "{compared:?}");
    assert!(compared.out_of_fuel <= 10, "{compared:?}");
}

/// Programs of the drafts, and larger ones.
fn programs() -> impl Iterator<Item = Program> {
    let larger = (0..3_000).map(|index| legal_program(&mut Random::of_index(14, index)));
    drafts().map(|draft| draft.program).chain(larger)
}

#[test]
fn rewrapping_keeps_programs_legal_and_changes_no_acting_command() {
    let mut made = [0; CHANGES.len()];
    let mut inside = [0; 3];
    let mut at_limits = [0; 2];
    for (index, program) in programs().enumerate() {
        let random = &mut Random::of_index(15, index as u64);
        let (other, changes) = rewrapped(random, &program);
        assert_eq!(other.rules, program.rules);
        assert_eq!(acting(&other), acting(&program));
        let image = encode::program(&other);
        assert!(image.len() <= limit::IMAGE_BYTES);
        assert_eq!(decode::program(&image).as_ref(), Ok(&other));
        assert_eq!(references::check(&other), Ok(()));
        assert!(placement::check(&other));
        assert!(depth::check(&other).is_ok());
        (0..made.len()).for_each(|change| made[change] += changes[change]);
        let (before, after) = (insides(&program.main), insides(&other.main));
        (0..3).for_each(|kind| inside[kind] += usize::from(before[kind] != after[kind]));
        at_limits[0] += usize::from(other.main.depth() == limit::DEPTH);
        at_limits[1] += usize::from(has_full_sequence(&other.main));
    }
    assert!(made.iter().all(|count| *count >= 1_000), "{made:?}");
    assert!(inside.iter().all(|count| *count >= 1_000), "{inside:?}");
    assert!(at_limits.iter().all(|count| *count >= 100), "{at_limits:?}");
}

fn has_full_sequence(command: &Command) -> bool {
    let full = matches!(command, Command::Sequence(parts) if parts.len() == limit::COMMANDS);
    full || command.parts().into_iter().any(has_full_sequence)
}

/// A change of a program, where it can be made.
type Change = fn(&mut Random, &Program) -> Option<Program>;

/// The drafts in which the comparison notices a change.
fn noticed(change: Change) -> usize {
    let notices = |(index, draft): (usize, Draft)| {
        let random = &mut Random::of_index(16, index as u64);
        let Some(program) = change(random, &draft.program) else {
            return false;
        };
        let unlike = acting(&program) != acting(&draft.program);
        let other = Draft {
            program,
            fuel: 2_000,
            ..draft.clone()
        };
        let (first, second) = (Run::of(&draft.sample()), Run::of(&other.sample()));
        let compared = ended(first.outcome.answer) && ended(second.outcome.answer);
        let notices = compared && first.common() != second.common();
        assert!(unlike || !notices, "{draft:#?}\n{other:#?}");
        notices
    };
    drafts().enumerate().map(notices).filter(|it| *it).count()
}

#[test]
fn another_order_and_a_missing_command_are_noticed() {
    let counts = [exchanged, dropped].map(noticed);
    assert!(counts.iter().all(|count| *count >= 300), "{counts:?}");
}

const RULES: &str = "
a() [ | ] => [ | ] interface = {}
b() [ | ] => [ | ] interface = {}
";

/// Commands as text, with what they come to.
fn written() -> [(&'static str, Vec<Acting>); 6] {
    let call = |number| Acting::RuleSet(vec![number]);
    let guarded = Acting::Guarded {
        keep: false,
        guard: vec![call(0)],
        then: vec![call(1)],
        other: vec![],
    };
    [
        ("a", vec![call(0)]),
        ("{b, a}", vec![Acting::RuleSet(vec![1, 0])]),
        ("skip", vec![]),
        ("b!", vec![Acting::Loop(vec![call(1)])]),
        ("fail", vec![Acting::Fail]),
        ("if a then b", vec![guarded]),
    ]
}

#[test]
fn the_grouping_of_long_sequences_in_text_only_wraps() {
    for length in [17, 32, 33, 256, 257, 300] {
        let commands: Vec<_> = written().into_iter().cycle().take(length).collect();
        let texts: Vec<&str> = commands.iter().map(|(text, _)| *text).collect();
        let flat: Vec<Acting> = commands.into_iter().flat_map(|(_, it)| it).collect();
        let main = |text: String| {
            let program = assemble_program("test", &format!("Main = {text}{RULES}"));
            acting(&program.expect("a legal text"))
        };
        let row = texts.join("; ");
        assert_eq!(main(row.clone()), flat);
        assert_eq!(main(format!("({row})!")), [Acting::Loop(flat.clone())]);
        let branches = Acting::Guarded {
            keep: true,
            guard: flat,
            then: vec![],
            other: vec![],
        };
        assert_eq!(main(format!("try ({row})")), [branches]);
    }
}
