//! A line of the table on the page.

use super::super::kept::Seen;
use super::super::outcome::{Outcome, Shown, Sort, Told};
use super::head::size;
use crate::html::isolated;

/// The class of a sort, for its colour; the words say it as well.
pub fn class(sort: Sort) -> &'static str {
    match sort {
        Sort::Holds => "holds",
        Sort::Vacuous => "vacuous",
        Sort::DoesNotHold => "fails",
        Sort::Refused | Sort::Malformed | Sort::NotReadable => "unfit",
    }
}

/// A line; `others` are the files that have no place in the list with the bytes by which it was judged.
pub fn html(told: &Told, shown: &Shown, others: &[&Seen]) -> String {
    let (number, outcome) = (told.number, &told.outcome);
    format!(
        "<tbody id=\"line-{number}\" class=\"{}\">\n<tr><th scope=\"row\">{number}</th>\n<td><code>{}</code>{}</td>\n<td>{}</td></tr>\n\
         {}</tbody>\n",
        class(outcome.sort),
        isolated(&told.text),
        terms(shown),
        verdict(outcome, others),
        more(outcome, shown),
    )
}

fn terms(shown: &Shown) -> String {
    let named = ["A", "B"].into_iter().zip(&shown.terms);
    let listed = named.filter_map(|(letter, term)| {
        let term = isolated(term.as_deref()?);
        Some(format!("<dt>{letter}</dt><dd>{term}</dd>"))
    });
    let listed: String = listed.collect();
    match listed.as_str() {
        "" => listed,
        _ => format!("\n<dl class=\"terms\">{listed}</dl>"),
    }
}

fn verdict(outcome: &Outcome, others: &[&Seen]) -> String {
    let mut html = format!("<strong>{}</strong>", outcome.sort.words());
    for line in outcome.why.lines() {
        html.push_str(&format!("\n<p>{}</p>", isolated(line.trim())));
    }
    for seen in others {
        if let Some(digest) = &seen.digest {
            let hash = digest.sha256.as_deref().unwrap_or("not taken");
            html.push_str(&format!(
                "\n<p>judged by {}, {}, SHA-256 <span class=\"hash\">{hash}</span></p>",
                isolated(&seen.name),
                size(digest),
            ));
        }
    }
    html
}

/// What explains a line that does not hold, in a row of its own below.
fn more(outcome: &Outcome, shown: &Shown) -> String {
    let lines = shown.detail.lines();
    let words: String = lines
        .map(|line| format!("\n<p class=\"detail\">{}</p>", isolated(line)))
        .collect();
    let html = match &outcome.drawing {
        Some(drawing) => format!(
            "<figure>\n{}\n<figcaption>{words}</figcaption>\n</figure>",
            drawing.trim_end()
        ),
        None => words,
    };
    match html.as_str() {
        "" => html,
        _ => format!("<tr class=\"more\"><td></td><td colspan=\"2\">{html}</td></tr>\n"),
    }
}
