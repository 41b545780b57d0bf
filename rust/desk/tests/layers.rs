//! The modules of desk lie one above the other: no two use each other, be it through others.

#![allow(clippy::unwrap_used, clippy::indexing_slicing)]

mod support;

use std::collections::{BTreeMap, BTreeSet};
use std::fs;
use std::path::Path;
use support::root;

/// The modules of the crate's root that a source names, as in `crate::text::..` or `use crate::{script, text}`.
fn named(source: &str) -> BTreeSet<String> {
    let mut found = BTreeSet::new();
    for rest in source.split("crate::").skip(1) {
        let group = rest.strip_prefix('{').and_then(|group| group.split('}').next());
        for path in group
            .unwrap_or(rest)
            .split(',')
            .take(if group.is_some() { 99 } else { 1 })
        {
            let word = |c: char| c.is_ascii_lowercase() || c == '_';
            found.insert(path.trim().chars().take_while(|c| word(*c)).collect());
        }
    }
    found
}

/// Adds what the sources below a path use, but for tests.
fn gather(path: &Path, uses: &mut BTreeSet<String>) {
    let name = path.file_name().unwrap().to_string_lossy().into_owned();
    if name.starts_with("tests") {
        return;
    }
    if path.is_dir() {
        for entry in fs::read_dir(path).unwrap() {
            gather(&entry.unwrap().path(), uses);
        }
    } else {
        let source = fs::read_to_string(path).unwrap();
        let code = source.split("#[cfg(test)]\nmod tests {").next().unwrap_or_default();
        uses.extend(named(code));
    }
}

#[test]
fn no_two_modules_use_each_other() {
    let mut layers: BTreeMap<String, BTreeSet<String>> = BTreeMap::new();
    for entry in fs::read_dir(root().join("rust/desk/src")).unwrap() {
        let path = entry.unwrap().path();
        let module = path.file_stem().unwrap().to_string_lossy().into_owned();
        gather(&path, layers.entry(module).or_default());
    }
    layers.remove("main");
    let modules: BTreeSet<String> = layers.keys().cloned().collect();
    assert!(modules.len() >= 18, "{modules:?}");
    for (module, uses) in &mut layers {
        uses.retain(|used| used != module && modules.contains(used));
    }
    assert!(layers["commands"].len() >= 10, "{layers:?}");
    // Modules that use nothing that is left go, until all have gone.
    while let Some(lowest) = layers.iter().find(|(_, uses)| uses.is_empty()).map(|(m, _)| m.clone()) {
        layers.remove(&lowest);
        layers.values_mut().for_each(|uses| {
            uses.remove(&lowest);
        });
    }
    assert!(layers.is_empty(), "a circle among {layers:?}");
}
