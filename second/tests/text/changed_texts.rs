//! Texts with a few characters changed: each is refused at a place inside of it, or assembles.

use second::random::Random;
use second::text::assemble;

/// A text in which every part of the notation occurs.
const EVERYTHING: &str = "
Main = a!; (b; {a, c};); if (P!) then skip else try Q then fail // a comment
P = [ l() [ | ] => [ | ] interface = {} ] try l else skip
Q = (a; break)!; {}
a(x, y: list; i, j: int)
[ (n1(R), x:i # any) (2, j:-5 # grey) | (e1(B), n1, 2, y # dashed) (e2, 2, 2, empty # red) ]
=>
[ (2, i+j:(j-1):7 # green) (n1, x # any) (new(R), empty) | (e1(B), 2, n1, y) ]
interface = {2, n1}
where not edge(n1, 2) and indeg(2) > 1 and (i <= j)
roots = preserving
b() [ | ] => [ | ] interface = {}
c() [ | ] => [ | ] interface = {} roots = reflecting
host fuel 10 nodes 4 [ (1(R), 5:-6 # red) () | (1, 1, 1, empty) ]
";

/// The text with some of its characters left out, doubled or replaced by others of it.
fn changed(text: &str, random: &mut Random) -> String {
    let mut characters: Vec<char> = text.chars().collect();
    for _ in 0..random.between(1, 3) {
        let at = random.below(characters.len());
        let other = random.pick(&characters);
        match random.below(4) {
            0 => characters[at] = other,
            1 => characters.insert(at, other),
            2 => drop(characters.drain(at..(at + random.below(30)).min(characters.len()))),
            _ => {
                let part: Vec<char> = characters[at..].iter().copied().take(30).collect();
                characters.splice(at..at, part);
            }
        }
    }
    characters.into_iter().collect()
}

#[test]
fn changed_texts_are_refused_inside_of_the_text_or_assemble() {
    assert!(assemble("test", EVERYTHING).is_ok());
    let mut random = Random::new(7);
    let mut refused = 0;
    for _ in 0..5000 {
        let text = changed(EVERYTHING, &mut random);
        if let Err(complaint) = assemble("test", &text) {
            refused += 1;
            let lines = text.split('\n').count();
            assert!(
                (1..=lines).contains(&complaint.place.line),
                "{complaint}\n{text}"
            );
            assert!(complaint.message.contains("expected"), "{complaint}");
        }
    }
    assert!((1000..5000).contains(&refused), "{refused}");
}
