//! Texts whose breaks lie on many lines and columns.

use crate::answer;
use crate::refusals;

use super::telling::{GRAPH, SEPARATORS, WORDS};
use super::LAYOUT;

/// What stands before a text to move its break.
const STARTS: [&str; 6] = ["\n\n  ", "// \u{e4}\u{f6}\n\t", "/*\u{e4}\u{f6}*/ ", "/*\n\n*/", "\r\n\r", ""];

/// The longest text of a refusal of import that is taken.
const LONGEST: usize = 200;

/// Each text, most of them outside the grammar.
pub fn broken_texts() -> Vec<Vec<u8>> {
    let mut texts = vec![GRAPH.to_string(), spaced(0..WORDS.len())];
    for place in 0..WORDS.len() {
        texts.extend(changed_at(place));
    }
    texts.extend(FURTHER.map(str::to_string));
    texts.extend(along());
    texts.extend(far_away());
    let mut texts: Vec<Vec<u8>> = texts.into_iter().map(String::into_bytes).collect();
    let refusals = refusals::of_import(LAYOUT).into_iter();
    let of_texts = refusals.filter(|it| it.answer >= answer::TEXT_GRAMMAR && it.refused.text.len() <= LONGEST);
    texts.extend(of_texts.zip(STARTS.iter().cycle()).map(|(it, start)| [start.as_bytes(), &it.refused.text].concat()));
    texts
}

/// Some of the words, behind each a separator of its own.
fn spaced(words: std::ops::Range<usize>) -> String {
    words.map(|place| format!("{}{}", WORDS[place], SEPARATORS[(5 * place + 2) % SEPARATORS.len()])).collect()
}

/// The words with a change at one place: they end there, the word is missing, stands twice, is another, or a comment begins there,
/// which ends with the next one or not at all.
fn changed_at(place: usize) -> Vec<String> {
    let (before, from, behind) = (spaced(0..place), spaced(place..WORDS.len()), spaced(place + 1..WORDS.len()));
    let other = ["x", "?", "5", "(", "\u{e4}", "]", "red"][place % 7];
    vec![
        before.clone(),
        format!("{before}{behind}"),
        format!("{before}{} {from}", WORDS[place]),
        format!("{before}{other} {behind}"),
        format!("{before}/*{from}"),
        format!("{before}/* x\n y"),
    ]
}

/// Ends of texts, words behind a graph, and comments without an end.
const FURTHER: [&str; 20] = [
    "\n",
    "\n\n\n",
    "   ",
    "[",
    "[\n",
    "[ (1, 0) x | ]",
    "[\n  (1, 5 # pink)\n| ]",
    "[|]\nx",
    "[|]\n\n  /",
    "[|] // x\n ] ",
    "[|]\n/* x",
    "[|]\n/* x\n",
    "[|] /*",
    "[|] /*\n",
    "[|] /* *",
    "x /* x",
    "[ x /* x",
    "[\n/*/",
    "[|]\n\u{feff}",
    "\u{feff}[|]",
];

/// Breaks on each of some lines, in a column of its own.
fn along() -> impl Iterator<Item = String> {
    (1..=16).map(|line| format!("[{}{}x", "\n".repeat(line), " ".repeat(3 * line)))
}

/// Breaks behind many lines and many columns, and too many items, of which none is a break.
fn far_away() -> Vec<String> {
    let nodes = |count: usize| "(a,1)".repeat(count);
    vec![
        format!("[{}x", "\n".repeat(1_200)),
        format!("[{}x", " ".repeat(1_200)),
        format!("[{}|x", nodes(300)),
        format!("[{}|]", nodes(300)),
        format!("[{}|]", nodes(LAYOUT.most_nodes + 1)),
        format!("[({},1)|]\n ]", "name".repeat(300)),
        format!("[(a,{}x)|]", "9".repeat(1_000)),
        format!("[(a,{})\n|x]", "9".repeat(1_000)),
    ]
}
