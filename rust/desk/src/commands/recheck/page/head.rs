//! What stands on the page before the lines: the summary and the files.

use super::super::outcome::Sort;
use super::super::summary::Tally;
use super::listed::{File, Listed};
use super::row;
use crate::date::Date;
use crate::display::{counted, grouped};
use crate::files::{Digest, Name};
use crate::html::{escaped, isolated};
use base::Status;

/// How the page looks, on a screen and on paper.
const STYLE: &str = include_str!("page.css");

/// What is known in the end.
pub struct Head<'a> {
    /// The name of the table.
    pub table: &'a Name,
    /// Its bytes.
    pub digest: Option<Digest>,
    /// How its lines came out.
    pub tally: &'a Tally,
    /// Whether lines that hold vacuously fail.
    pub strict: bool,
    /// When the run began.
    pub date: Date,
    /// The files that lines name.
    pub listed: &'a Listed,
    /// The first lines that do not simply hold.
    pub first: &'a [u64],
    /// The text of --words.
    pub words: Option<&'a (Name, Digest)>,
}

impl Head<'_> {
    /// The page up to its first line.
    pub fn html(&self) -> String {
        let name = self.table.to_string();
        format!(
            "<!DOCTYPE html>\n<html lang=\"en\">\n<head>\n<meta charset=\"utf-8\">\n\
             <meta name=\"viewport\" content=\"width=device-width, initial-scale=1\">\n\
             <title>Recheck of {}: {}</title>\n<style>\n{STYLE}</style>\n</head>\n<body>\n<main>\n\
             <h1>Recheck of {}</h1>\n{}{}{}{}",
            escaped(&name),
            self.result(),
            isolated(&name),
            self.facts(),
            self.summary(),
            self.files(),
            lines(),
        )
    }

    fn holds(&self) -> bool {
        self.tally.status == Status::Holds
    }

    fn result(&self) -> &'static str {
        match self.holds() {
            true => "holds",
            false => "does not hold",
        }
    }

    fn facts(&self) -> String {
        let class = if self.holds() { "holds" } else { "fails" };
        let tally = self.tally;
        let words = match tally.lines() {
            0 => "it has no line to recheck".to_string(),
            lines => format!("{} of {} lines hold", grouped(tally.holding()), grouped(lines)),
        };
        let marked = match self.strict {
            true => "are counted as failing (--strict)",
            false => "are counted apart, and do not make the table fail",
        };
        format!(
            "<p class=\"result {class}\"><strong>The table {}:</strong> {words}.</p>\n<dl class=\"facts\">\n\
             <dt>Date</dt><dd><time>{}</time> (UTC)</dd>\n\
             <dt>Judged by</dt><dd>desk {}, with the library judge {}</dd>\n\
             <dt>Lines that hold only vacuously</dt><dd>{marked}</dd>\n</dl>\n",
            self.result(),
            self.date,
            env!("CARGO_PKG_VERSION"),
            judge::VERSION,
        )
    }

    fn summary(&self) -> String {
        let mut html =
            "<h2 id=\"summary\">Summary</h2>\n<table class=\"counts\">\n<thead><tr><th scope=\"col\">Verdict</th>\
             <th scope=\"col\">Lines</th></tr></thead>\n<tbody>\n"
                .to_string();
        for (sort, count) in self.tally.counts() {
            html.push_str(&format!(
                "<tr class=\"{}\"><th scope=\"row\">{}{}</th><td>{}</td></tr>\n",
                row::class(sort),
                sort.words(),
                meaning(sort),
                grouped(count),
            ));
        }
        html.push_str(&format!("</tbody>\n</table>\n{}", self.leads()));
        html
    }

    /// Where the lines stand that do not simply hold.
    fn leads(&self) -> String {
        let tally = self.tally;
        let all = tally.lines() - tally.holding();
        if all == 0 {
            return String::new();
        }
        let links = self
            .first
            .iter()
            .map(|line| format!("<a href=\"#line-{line}\">{line}</a>"));
        let links: Vec<String> = links.collect();
        let more = match all - self.first.len() as u64 {
            0 => String::new(),
            more => format!(" and {} more", grouped(more)),
        };
        format!("<p>Lines to look at: {}{more}.</p>\n", links.join(", "))
    }

    fn files(&self) -> String {
        let mut html = "<h2 id=\"files\">Files</h2>\n<table class=\"files\">\n<thead><tr><th scope=\"col\">File</th>\
             <th scope=\"col\">What it is</th><th scope=\"col\">Size</th><th scope=\"col\">SHA-256</th></tr></thead>\n<tbody>\n"
            .to_string();
        html.push_str(&file(&self.table.to_string(), "table", self.digest.as_ref(), false));
        if let Some((name, digest)) = self.words {
            html.push_str(&file(&name.to_string(), "words", Some(digest), false));
        }
        for File { seen, changed, .. } in self.listed.in_order() {
            html.push_str(&file(&seen.name, seen.what, seen.digest.as_ref(), *changed));
        }
        html.push_str("</tbody>\n</table>\n");
        if self.listed.is_full {
            html.push_str(
                "<p>The table names more files than are listed; the others stand at each line that names them.</p>\n",
            );
        }
        html
    }
}

/// The beginning of the table of lines.
fn lines() -> &'static str {
    "<h2 id=\"lines\">Lines</h2>\n<table class=\"lines\">\n<thead><tr><th scope=\"col\">Line</th>\
     <th scope=\"col\">Claim, and its terms</th><th scope=\"col\">Verdict</th></tr></thead>\n"
}

/// What a verdict that may need it means.
fn meaning(sort: Sort) -> &'static str {
    match sort {
        Sort::Vacuous => " (nothing satisfies the statements, or nothing can belong to a term)",
        Sort::Refused => " (a vocabulary, a script or a number of a term is not accepted)",
        Sort::Malformed => " (the line does not have the form)",
        Sort::NotReadable => " (a file cannot be read)",
        Sort::Holds | Sort::DoesNotHold => "",
    }
}

/// The size of a file.
pub fn size(digest: &Digest) -> String {
    counted(digest.bytes, "byte")
}

fn file(name: &str, kind: &str, digest: Option<&Digest>, changed: bool) -> String {
    let size = digest.map_or("-".to_string(), size);
    let hash = match digest {
        None => "not readable".to_string(),
        Some(Digest { sha256: None, .. }) => "not taken: too large to be read whole".to_string(),
        Some(Digest { sha256: Some(hash), .. }) => format!("<span class=\"hash\">{hash}</span>"),
    };
    let change = match changed {
        true => "<p>It has changed during the run. Lines that were judged by other bytes say so.</p>",
        false => "",
    };
    format!(
        "<tr><th scope=\"row\">{}</th><td>{kind}</td><td>{size}</td><td>{hash}{change}</td></tr>\n",
        isolated(name)
    )
}
