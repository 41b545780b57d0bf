//! A small checker of HTML pages: tags are balanced and nest as they may, ids are unique, links lead to them, and nothing is
//! fetched or run.

#![allow(clippy::unwrap_used, clippy::panic)]

use std::collections::BTreeSet;

/// The elements that have no end.
const VOID: [&str; 2] = ["meta", "br"];
/// What would fetch something, or run it.
const FETCHES: [&str; 11] = [
    "<script",
    "<link",
    "<iframe",
    "<object",
    "<embed",
    "<img",
    "<base",
    "<form",
    " src=",
    "@import",
    "javascript:",
];

/// What a page has.
pub struct Page {
    /// The ids of its elements.
    pub ids: BTreeSet<String>,
}

impl Page {
    /// Checks a page.
    pub fn read(text: &str) -> Page {
        assert!(text.starts_with("<!DOCTYPE html>\n<html lang=\"en\">"));
        for word in FETCHES {
            assert!(!text.contains(word), "{word}");
        }
        assert_eq!(text.matches("url(").count(), text.matches("url(#").count());
        let (mut open, mut ids, mut links) = (Vec::new(), BTreeSet::new(), BTreeSet::new());
        let mut rest = text.strip_prefix("<!DOCTYPE html>").unwrap();
        while let Some((before, tag, after)) = next_tag(rest) {
            check_text(before, open.last().copied());
            check_tag(tag, &mut open);
            for (name, value) in attributes(tag) {
                check_attribute(name, value);
                if name == "id" {
                    assert!(ids.insert(value.to_string()), "the id {value} is not unique");
                }
                links.extend(value.strip_prefix('#').filter(|_| name == "href").map(str::to_string));
                let marker = value.strip_prefix("url(#").and_then(|value| value.strip_suffix(')'));
                links.extend(marker.map(str::to_string));
            }
            rest = after;
        }
        assert!(open.is_empty(), "{open:?} are not ended");
        assert!(rest.trim().is_empty());
        let lost: Vec<&String> = links.difference(&ids).collect();
        assert!(lost.is_empty(), "{lost:?} lead nowhere");
        Page { ids }
    }
}

/// The text before the next tag, that tag without its brackets, and what is after it.
fn next_tag(text: &str) -> Option<(&str, &str, &str)> {
    let (before, rest) = text.split_once('<')?;
    let (tag, after) = rest.split_once('>').unwrap();
    Some((before, tag, after))
}

/// Text has no bare ampersand or bracket, and no character that may not be seen.
fn check_text(text: &str, within: Option<&str>) {
    if within == Some("style") {
        return;
    }
    assert!(!text.contains('>'), "{text}");
    for part in text.split('&').skip(1) {
        let is_known = ["amp;", "lt;", "gt;", "quot;", "#39;", "apos;"]
            .iter()
            .any(|word| part.starts_with(word));
        assert!(is_known, "&{part}");
    }
    let is_raw = |c: char| c.is_control() && c != '\n' && c != '\t';
    assert!(!text.contains(is_raw), "{text:?}");
}

fn check_tag<'a>(tag: &'a str, open: &mut Vec<&'a str>) {
    if let Some(name) = tag.strip_prefix('/') {
        assert_eq!(open.pop(), Some(name));
        return;
    }
    let name = tag.split([' ', '/', '\n']).next().unwrap();
    assert!(
        !name.is_empty() && name.chars().all(|c| c.is_ascii_alphanumeric()),
        "{tag}"
    );
    let parent = open.last().copied().unwrap_or_default();
    let wanted: &[&str] = match name {
        "html" => &[""],
        "head" | "body" => &["html"],
        "main" => &["body"],
        "thead" | "tbody" => &["table"],
        "tr" => &["thead", "tbody"],
        "th" | "td" => &["tr"],
        "dt" | "dd" => &["dl"],
        "figcaption" => &["figure"],
        _ => &[],
    };
    assert!(wanted.is_empty() || wanted.contains(&parent), "{name} in {parent}");
    if !VOID.contains(&name) && !tag.ends_with('/') {
        open.push(name);
    }
}

/// The attributes of a tag, each by its name and its value in double quotes.
fn attributes(tag: &str) -> Vec<(&str, &str)> {
    let mut found = Vec::new();
    let mut rest = tag;
    while let Some((before, after)) = rest.split_once("=\"") {
        let name = before.rsplit([' ', '\n']).next().unwrap();
        let (value, after) = after.split_once('"').unwrap();
        found.push((name, value));
        rest = after;
    }
    found
}

fn check_attribute(name: &str, value: &str) {
    assert!(!name.starts_with("on"), "{name} runs something");
    let is_namespace = name == "xmlns" && value == "http://www.w3.org/2000/svg";
    assert!(is_namespace || !value.contains("://"), "{name}={value}");
    assert!(name != "href" || value.starts_with('#'), "{name}={value}");
}
