//! No modules of the library import each other in a ring.

use std::collections::{BTreeMap, BTreeSet};
use std::path::{Path, PathBuf};

type Imports = BTreeMap<String, BTreeSet<String>>;

/// The Rust files below a folder.
fn files(folder: &Path) -> Vec<PathBuf> {
    let entries = std::fs::read_dir(folder).expect("a folder of sources");
    let paths = entries.map(|entry| entry.expect("an entry").path());
    paths
        .flat_map(|path| match path.is_dir() {
            true => files(&path),
            false => vec![path],
        })
        .collect()
}

/// What each module at the top of the library imports of the others, its inner modules included.
fn imports() -> Imports {
    let folder = Path::new(env!("CARGO_MANIFEST_DIR")).join("src");
    let mut imports = Imports::new();
    for file in files(&folder) {
        let inner = file.strip_prefix(&folder).expect("a file of the folder");
        let first = inner.iter().next().expect("a name").to_string_lossy();
        let module = first.trim_end_matches(".rs").to_string();
        let text = std::fs::read_to_string(&file).expect("a source");
        let named = imports.entry(module).or_default();
        named.extend(text.split("crate::").skip(1).flat_map(first_names));
    }
    for outside in ["lib", "bin"] {
        imports.remove(outside);
    }
    let modules: BTreeSet<String> = imports.keys().cloned().collect();
    for (module, named) in &mut imports {
        named.retain(|name| modules.contains(name) && name != module);
    }
    imports
}

/// The modules named behind `crate::`, of which there are several in braces.
fn first_names(behind: &str) -> Vec<String> {
    let name = |text: &str| -> String {
        let letters = text.trim_start().chars();
        letters
            .take_while(|c| c.is_alphanumeric() || *c == '_')
            .collect()
    };
    match behind
        .strip_prefix('{')
        .and_then(|list| list.split_once('}'))
    {
        Some((list, _)) => list.split(',').map(name).collect(),
        None => vec![name(behind)],
    }
}

/// The modules that are left when those that import no other left one are taken away, again and again.
fn in_rings(mut imports: Imports) -> Imports {
    loop {
        let left: BTreeSet<String> = imports.keys().cloned().collect();
        imports.retain(|_, named| named.iter().any(|name| left.contains(name)));
        if imports.len() == left.len() {
            return imports;
        }
    }
}

#[test]
fn no_modules_import_each_other_in_a_ring() {
    let imports = imports();
    for (upper, lower) in [
        ("calls", "commands"),
        ("commands", "applying"),
        ("applying", "matching"),
        ("stored", "corpus"),
    ] {
        assert!(
            imports[upper].contains(lower),
            "{upper} should import {lower}"
        );
    }
    assert_eq!(in_rings(imports), Imports::new());
}

#[test]
fn a_ring_is_found() {
    let of = |pairs: &[(&str, &str)]| -> Imports {
        let imports = pairs.iter();
        imports
            .map(|(upper, lower)| (upper.to_string(), BTreeSet::from([lower.to_string()])))
            .collect()
    };
    let ring = in_rings(of(&[("a", "b"), ("b", "c"), ("c", "b"), ("d", "e")]));
    assert_eq!(ring.keys().collect::<Vec<_>>(), ["a", "b", "c"]);
    assert_eq!(in_rings(of(&[("a", "b"), ("b", "c")])), Imports::new());
}
