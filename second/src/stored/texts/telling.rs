//! Texts by hand: every production of the grammar, white space and comments at every place, integers at their limits, labels of
//! each length, marks, and names of every kind.

/// A graph with comments and positions, every mark, names of every kind, loops and parallel edges.
pub(super) const GRAPH: &str = "\
/* The parts of a dashboard:
   gauges are grey, lamps have a colour. **/
[
  (speed(R), 88:-120 # grey <10, 20.5>) <0.0, -1>
  (rpm, 0007 # grey) <10.25, 40>   // the second gauge
  (lamp_1, empty # red) (lamp_2, -0 # green)(01,1:2:3:4:5:6:7:-8#blue)
  (1, empty)
  ( empty ( R ) , - 2147483648 : 2147483647 < - 1 . 5 , 2 > ) // a name as any other
|
  (speed, speed, rpm, empty) /**/ (1, rpm, lamp_1, 3 # red)
  (2, rpm, lamp_1, 3 # red) // beside the first
  (3, 01, 1, -1:0 # dashed)
\t(4, lamp_2, lamp_2, empty # green)\r
  (R, empty, empty, 9:9:9:9:9:9:9:9 # blue)
]
// nothing behind
";

/// The words of a graph in which every production stands.
pub(super) const WORDS: [&str; 47] = [
    "[", "(", "a", "(", "R", ")", ",", "-", "5", ":", "07", "#", "red", "<", "1", ",", "-", "2", ".", "5", ">", ")", "<", "3", ",",
    "4", ">", "(", "b", ",", "empty", ")", "|", "(", "e", ",", "a", ",", "b", ",", "1", ":", "2", "#", "dashed", ")", "]",
];

/// What may stand between two words.
pub(super) const SEPARATORS: [&str; 14] = [
    " ", "\t", "\n", "\r", "\r\n", " \t\n\r ", "//\n", "// x ]\n", "//*\n", "/**/", "/***/", "/* // \n */", "/*/ x **/", "/*\u{e4}*/",
];

pub(super) fn texts() -> Vec<Vec<u8>> {
    let mut texts = vec![GRAPH.to_string(), WORDS.concat()];
    texts.extend(spacings());
    texts.extend(parted_words());
    texts.extend(integers());
    texts.extend(labels());
    texts.extend(marks());
    texts.extend(names());
    texts.extend(positions());
    texts.extend(EDGES.map(str::to_string));
    texts.into_iter().map(String::into_bytes).collect()
}

/// The words with some separators at each place, and with each separator at every place.
fn spacings() -> Vec<String> {
    let mut texts = Vec::new();
    for place in 0..=WORDS.len() {
        for turn in 0..3 {
            let separator = SEPARATORS[(3 * place + 5 * turn) % SEPARATORS.len()];
            texts.push(format!("{}{separator}{}", WORDS[..place].concat(), WORDS[place..].concat()));
        }
    }
    for separator in SEPARATORS {
        texts.push(format!("{separator}{}{separator}", WORDS.join(separator)));
    }
    texts.push(format!("{}//", WORDS.concat()));
    texts.push(format!("{}// x", WORDS.concat()));
    texts
}

/// A separator inside of a name, which makes two of it.
fn parted_words() -> Vec<String> {
    let mut texts = Vec::new();
    for (place, word) in WORDS.iter().enumerate().filter(|(_, word)| word.len() > 1) {
        for separator in ["/**/", "\n"] {
            let parted = format!("{}{separator}{}", &word[..1], &word[1..]);
            texts.push(format!("{}{parted}{}", WORDS[..place].concat(), WORDS[place + 1..].concat()));
        }
    }
    texts
}

const INTEGERS: [&str; 24] = [
    "0", "-0", "00", "-000", "1", "-1", "9", "10", "-10", "255", "256", "65535", "65536", "-65536", "16777216", "1000000000",
    "2147483646", "2147483647", "-2147483647", "-2147483648", "02147483647", "-002147483648", "2147483650", "-2147483650",
];

/// Integers on a node and on an edge, among others, and with hundreds of digits.
fn integers() -> Vec<String> {
    let mut integers: Vec<String> = INTEGERS.map(str::to_string).to_vec();
    let (zeros, ones) = ("0".repeat(500), "1".repeat(500));
    integers.extend([format!("{zeros}7"), format!("-{zeros}7"), zeros.clone(), format!("-{ones}"), format!("{ones}{zeros}")]);
    integers.iter().map(|integer| format!("[(a,{integer})|(e,a,a,1:{integer}:-1)]")).collect()
}

/// Labels of each length up to one atom too many and more, of nodes and of edges.
fn labels() -> Vec<String> {
    let label = |atoms: i64| match atoms {
        0 => "empty".to_string(),
        _ => (1..=atoms).map(|atom| format!("{}", atom * atom * 1000 - 7)).collect::<Vec<String>>().join(":"),
    };
    let lengths = (0..=10).chain([100]);
    lengths.flat_map(|atoms| [format!("[(a,{})|]", label(atoms)), format!("[(a,1)|(e,a,a,{})]", label(atoms))]).collect()
}

/// Every mark and some words that are none, on labels of no atom and of one, of nodes and of edges.
fn marks() -> Vec<String> {
    let words = ["red", "green", "blue", "grey", "dashed", "any", "none", "empty", "RED", "redd", "dash", "R", "1"];
    let texts = words.map(|mark| {
        [
            format!("[(a,empty#{mark})|]"),
            format!("[(a(R),1 # {mark} <1,2>)|]"),
            format!("[(a,1)|(e,a,a,empty # {mark})]"),
            format!("[(a,1)|(e,a,a,-1#{mark})]"),
        ]
    });
    texts.concat()
}

/// Names that are words of the notation, numbers, or hardly names.
pub(super) const NAMES: [&str; 24] = [
    "empty", "R", "B", "red", "dashed", "grey", "none", "any", "host", "interface", "Main", "0", "00", "007", "7x", "2147483648",
    "99999999999999999999", "_", "__", "_1", "a", "A", "Zz9_", "i",
];

/// A name of a node, of an edge and of both its ends.
fn names() -> Vec<String> {
    let mut names: Vec<String> = NAMES.map(str::to_string).to_vec();
    names.push("n".repeat(400));
    let mut texts: Vec<String> = names.iter().map(|name| format!("[({name},1)|({name},{name},{name},1)]")).collect();
    texts.extend(names.iter().map(|name| format!("[({name}(R),empty)(x,1)({name}_,2)|(x,{name}_,{name},1)({name},x,x,2)]")));
    texts
}

/// Numbers of a position.
pub(super) const NUMBERS: [&str; 8] = ["0", "-0", "-7", "007", "1.5", "-1.50", "99999999999999999999.00000000000000000001", "- 1 . 0"];

/// Positions of each kind of number, inside of a node and behind it.
fn positions() -> Vec<String> {
    let mut texts = Vec::new();
    for (x, y) in NUMBERS.iter().zip(NUMBERS.iter().cycle().skip(3)) {
        texts.push(format!("[(a,1<{x},{y}>)|]"));
        texts.push(format!("[(a,1)<{x},{y}>(b,empty # red < {y} , {x} >) < {y} , {x} >|]"));
    }
    texts
}

/// Loops, parallel edges, edges both ways, and edges of identifiers that nodes have.
const EDGES: [&str; 6] = [
    "[(a,1)|(e,a,a,1)(f,a,a,1)]",
    "[(a,1)(b,2)|(e,a,b,1)(f,a,b,1)(g,b,a,1)]",
    "[(a,1)(b,2)|(b,a,b,1)(a,b,a,1)]",
    "[(a,1)(b,2)(c,3)|(1,c,b,empty)(2,b,a,empty)(3,c,a,empty)]",
    "[(a(R),1)(b(R),2)|]",
    "[(2,1)(1,2)(0,3)|(1,0,1,0)(0,2,0,1)]",
];
