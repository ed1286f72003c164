//! The figures of a corpus as a page shows them: those of the wide core's images beside those of the small core's.

use super::statistics::{Counter, Statistics};
use super::Image;
use crate::layout::Core;
use std::collections::BTreeSet;
use std::fmt;

#[derive(Clone, Debug, PartialEq, Eq)]
pub struct Figures {
    pub wide: Statistics,
    pub small: Statistics,
}

impl Figures {
    pub fn of(images: &[Image]) -> Figures {
        let [wide, small] = Core::BOTH.map(|core| {
            let of_core = images.iter().filter(|image| image.core == core);
            Statistics::of(core, of_core.map(|image| image.bytes.as_slice()))
        });
        Figures { wide, small }
    }
}

impl fmt::Display for Figures {
    fn fmt(&self, out: &mut fmt::Formatter) -> fmt::Result {
        let (wide, small) = (&self.wide, &self.small);
        let mut row = |name: &str, wide: &dyn fmt::Display, small: &dyn fmt::Display| writeln!(out, "{name:<26} {wide:>9} {small:>9}");
        row("core", &"wide", &"small")?;
        row("images", &wide.images, &small.images)?;
        row("bytes", &wide.bytes, &small.bytes)?;
        row("runs started", &wide.started, &small.started)?;
        row("input refused", &wide.refused, &small.refused)?;
        let answers: BTreeSet<u32> = wide.answers.keys().chain(small.answers.keys()).copied().collect();
        for answer in answers {
            let [wide, small] = [wide, small].map(|it| it.answers.get(&answer).copied().unwrap_or(0));
            row(&format!("answer {answer}"), &wide, &small)?;
        }
        writeln!(out, "\n{:<26} {:>9} {:>9} {:>9} {:>9}", "exercised", "in wide", "times", "in small", "times")?;
        for (wide, small) in wide.counters.iter().zip(&small.counters) {
            let Counter { name, images, total } = wide;
            writeln!(out, "{name:<26} {images:>9} {total:>9} {:>9} {:>9}", small.images, small.total)?;
        }
        Ok(())
    }
}
