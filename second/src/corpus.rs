//! Random runner images for comparing interpreters: mostly legal programs that match, apply, fail, go back, loop,
//! break and call, and a share of damaged inputs. A seed gives the same images on any machine.
//!
//! A corpus is one file of images, each behind the head of a field: the tag of the core that runs it, 0x06 for the wide one and 0x08
//! for the small one, a length of two bytes, the image. It begins with the cases of document 01 and one input for each clause
//! of the refusals.

mod broken_calls;
mod broken_inputs;
mod broken_modes;
mod broken_programs;
mod cases;
mod command_line;
mod commands;
mod conditions;
mod corners;
mod damage;
mod drafts;
mod figures;
mod fixed;
mod groupings;
mod hosts;
mod large;
mod lefts;
mod lengths;
mod long_labels;
mod mode_programs;
mod modes;
mod narrow;
mod outlining;
mod palette;
mod procedures;
mod rights;
mod rules;
mod small;
mod statistics;
mod values;

use crate::encode::{field, runner_input};
use crate::families::program_images;
use crate::layout::{Core, Layout};
use crate::listing::listing_at;
use crate::random::Random;
use crate::tree::Program;
use drafts::Draft;
use fixed::fixed_images;

pub use command_line::{main, write_files};
pub use figures::Figures;
pub use groupings::groupings;
pub use mode_programs::mode_programs;
pub use procedures::procedures;
pub use rules::draw_mode;
pub use small::{case_p as small_case_p, packed, small_images};
pub use statistics::{Counter, Statistics};

/// The layout of the fixed images of the wide core.
const LAYOUT: &Layout = &Layout::BASE;

/// An image and the core that runs it.
#[derive(Clone, Debug, PartialEq, Eq)]
pub struct Image {
    pub core: Core,
    pub bytes: Vec<u8>,
}

impl Image {
    /// What the runner of its core prints.
    pub fn listing(&self) -> String {
        listing_at(self.core.layout(), &self.bytes)
    }
}

/// Images of one core.
pub fn of_core(core: Core, images: impl IntoIterator<Item = Vec<u8>>) -> Vec<Image> {
    let images = images.into_iter();
    images.map(|bytes| Image { core, bytes }).collect()
}

/// The tag before each image of a core.
pub const fn tag(core: Core) -> u8 {
    match core {
        Core::Wide => 0x06,
        Core::Small => 0x08,
    }
}

/// The seed of the stored corpus, and how many of its images come from there at the wide core.
pub const STORED_SEED: u64 = 1;
pub const STORED_COUNT: u64 = 2939;

/// How many drawn images of the small core are looked at for the stored corpus, and how long one of them may be: long programs are
/// among those of the wide core.
const SMALL_LOOKED_AT: u64 = 1700;
const SMALL_LONGEST: usize = 430;

/// One drawn image among so many is for the small core.
const SMALL_EVERY: u64 = 4;

/// One image of a core among so many is a large one.
const fn large_every(core: Core) -> u64 {
    match core {
        Core::Wide => 200,
        Core::Small => 100,
    }
}

/// The wide core's runner input of an index: a fixed one at first, then what the seed gives.
pub fn image(seed: u64, index: u64) -> Vec<u8> {
    let fixed = fixed_images();
    match fixed.get(index as usize) {
        Some(image) => image.clone(),
        None => drawn_image(Core::Wide, seed, index - fixed.len() as u64),
    }
}

/// The wide core's first `count` images of a seed.
pub fn images(seed: u64, count: u64) -> Vec<Vec<u8>> {
    (0..count).map(|index| image(seed, index)).collect()
}

/// The first `count` images that a seed draws for a core: all but those that are the same for each seed.
pub fn drawn_images(core: Core, seed: u64, count: u64) -> Vec<Vec<u8>> {
    (0..count).map(|index| drawn_image(core, seed, index)).collect()
}

/// The first `count` images that a seed draws for both cores.
pub fn drawn_corpus(seed: u64, count: u64) -> Vec<Image> {
    let drawn = |index: u64| {
        let core = match index % SMALL_EVERY == SMALL_EVERY - 1 {
            true => Core::Small,
            false => Core::Wide,
        };
        Image { core, bytes: drawn_image(core, seed, index) }
    };
    (0..count).map(drawn).collect()
}

/// The first `count` images of both cores: those that are the same for each seed, then what the seed draws.
pub fn corpus(seed: u64, count: u64) -> Vec<Image> {
    let mut images = of_core(Core::Wide, fixed_images().iter().cloned());
    images.extend(of_core(Core::Small, small_images()));
    images.truncate(count as usize);
    images.extend(drawn_corpus(seed, count - images.len() as u64));
    images
}

/// The images of the stored corpus. At the wide core: those of a seed, then every published program on every one of its hosts. Then at
/// the small core: the fixed ones, published programs on hosts that can be packed, and images that the seed draws.
pub fn stored_images() -> Vec<Image> {
    let mut stored = of_core(Core::Wide, images(STORED_SEED, STORED_COUNT));
    stored.extend(of_core(Core::Wide, program_images()));
    stored.extend(of_core(Core::Small, small_images()));
    stored.extend(of_core(Core::Small, small::program_images()));
    stored.extend(of_core(Core::Small, stored_small()));
    stored
}

/// The small core's drawn images of the stored corpus: the short ones, and a large one of each kind.
fn stored_small() -> Vec<Vec<u8>> {
    let first_large = |index: u64| is_large(Core::Small, index) && index / large_every(Core::Small) < large::kinds(Core::Small).len() as u64;
    let drawn = (0..SMALL_LOOKED_AT).map(|index| (index, drawn_image(Core::Small, STORED_SEED, index)));
    let stored = drawn.filter(|(index, image)| image.len() <= SMALL_LONGEST || first_large(*index));
    stored.map(|(_, image)| image).collect()
}

/// How many images of the wide core are the same for each seed. They come first.
pub fn fixed_count() -> u64 {
    fixed_images().len() as u64
}

fn is_large(core: Core, index: u64) -> bool {
    let every = large_every(core);
    index % every == every - 1
}

/// The image of an index that a seed draws for a core.
fn drawn_image(core: Core, seed: u64, index: u64) -> Vec<u8> {
    let mut random = Random::of_index(seed, index);
    if core == Core::Small {
        random = random.beside();
    }
    let layout = core.layout();
    if is_large(core, index) {
        return large::large(&mut random, core, index / large_every(core));
    }
    let draft = Draft::draw(&mut random, layout);
    if random.chance(7) {
        return damage::damaged(&mut random, draft);
    }
    let mut input = draft.input();
    if random.chance(22) {
        narrow::narrow(&mut random, layout, &mut input);
    }
    runner_input(&input)
}

/// A program whose form, references, placement of break and depth are right.
pub fn legal_program(random: &mut Random) -> Program {
    Draft::draw(random, LAYOUT).program
}

/// The layout whose tables are lent by mistake: the old one at the wide core, the wide core's at the small one.
fn foreign(layout: &Layout) -> &'static Layout {
    match *layout == Layout::SMALL {
        true => &Layout::BASE,
        false => &Layout::FOUR,
    }
}

/// The images of a corpus, or where it stops to be one.
pub fn split(corpus: &[u8]) -> Result<Vec<Image>, String> {
    let mut images = Vec::new();
    let mut rest = corpus;
    while !rest.is_empty() {
        let place = corpus.len() - rest.len();
        let damaged = |expected: &str| format!("byte {place}: {expected} expected");
        let (head, behind) = rest
            .split_at_checked(3)
            .ok_or_else(|| damaged("a tag and two bytes of length"))?;
        let core = Core::BOTH.into_iter().find(|core| tag(*core) == head[0]);
        let core = core.ok_or_else(|| damaged("the tag 0x06 or 0x08 of an image"))?;
        let length = usize::from(u16::from_be_bytes([head[1], head[2]]));
        let (image, behind) = behind
            .split_at_checked(length)
            .ok_or_else(|| damaged(&format!("an image of {length} bytes")))?;
        images.push(Image { core, bytes: image.to_vec() });
        rest = behind;
    }
    Ok(images)
}

/// The images as one corpus.
pub fn joined(images: &[Image]) -> Vec<u8> {
    images
        .iter()
        .flat_map(|image| field(tag(image.core), &image.bytes))
        .collect()
}

/// The listings of all images, one behind the other.
pub fn listings(images: &[Image]) -> String {
    images.iter().map(Image::listing).collect()
}
