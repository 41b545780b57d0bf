"""The TextMate grammar of editors/textmate over the samples beside this; words of the text reader that a syntax file lacks.

usage: sample.py tokens          the scopes of the places that sample.expected has, in its form
       sample.py words           fails where a word of rust/desk/src/text is in no pattern of the grammar or of Vim's file
       sample.py problems        the lines of standard input as the problem matcher of VS Code takes them apart
"""

from __future__ import annotations

import json
import re
import sys
from pathlib import Path
from typing import Any, Dict, Iterator, List, Tuple

HERE = Path(__file__).resolve().parent
ROOT = HERE.parent.parent
TEXTMATE = ROOT / "editors" / "textmate"

#: What sample.expected calls the scopes.
SORTS = {
    "comment.line": "comment",
    "storage.type": "header",
    "storage.modifier": "header",
    "keyword.other.naming": "naming",
    "keyword.other.link": "link",
    "keyword.other.part": "part",
    "keyword.other.raw": "raw",
    "keyword.control.statement": "statement",
    "keyword.control.step": "step",
    "string.quoted": "string",
    "constant.character.escape": "escape",
    "entity.name.label": "line",
    "entity.name.type": "name",
    "variable.other.role": "role",
    "constant.other.record": "record",
    "entity.name.function": "function",
    "constant.language": "constant",
    "constant.numeric": "number",
    "support.function.term": "term",
    "support.constant.owl": "owl",
}


def flat(grammar: Dict[str, Any], patterns: List[Dict[str, Any]]) -> Iterator[Dict[str, Any]]:
    """The patterns, those that are included among them."""
    for pattern in patterns:
        if "include" in pattern:
            yield from flat(grammar, [grammar["repository"][pattern["include"][1:]]])
        elif "match" in pattern or "begin" in pattern:
            yield pattern
        else:
            yield from flat(grammar, pattern["patterns"])


def first(line: str, at: int, patterns: List[Dict[str, Any]]) -> Tuple[Dict[str, Any], "re.Match[str]"]:
    """The pattern that matches first, of several the one that is listed first."""
    found = []
    for order, pattern in enumerate(patterns):
        match = re.compile(pattern.get("match", pattern.get("begin"))).search(line, at)
        if match is not None:
            found.append((match.start(), order, pattern, match))
    if not found:
        raise LookupError
    return min(found, key=lambda one: one[:2])[2:]


def scopes(grammar: Dict[str, Any], line: str) -> List[str]:
    """The innermost scope of each character; empty where there is none."""
    patterns = list(flat(grammar, grammar["patterns"]))
    result, at = [""] * len(line), 0
    while at < len(line):
        try:
            pattern, match = first(line, at, patterns)
        except LookupError:
            break
        end = match.end()
        if "begin" in pattern:
            inner = re.compile(f"(?:{'|'.join(p['match'] for p in pattern['patterns'])})|(?P<end>{pattern['end']})")
            marks = []
            while True:
                mark = inner.search(line, end)
                end = mark.end()
                if mark.group("end") is not None:
                    break
                marks.append(mark)
        result[match.start() : end] = [pattern["name"]] * (end - match.start())
        for mark in marks if "begin" in pattern else []:
            result[mark.start() : mark.end()] = [pattern["patterns"][0]["name"]] * (mark.end() - mark.start())
        at = max(end, at + 1)
    return result


def sort_of(scope: str) -> str:
    """What sample.expected calls a scope, each of which ends with the language."""
    if scope and not scope.endswith(".judge"):
        raise AssertionError(scope)
    return next((word for prefix, word in SORTS.items() if scope.startswith(prefix + ".")), scope)


def tokens() -> None:
    """Prints sample.expected as the grammar has it."""
    grammar = json.loads((TEXTMATE / "judge.tmLanguage.json").read_text())
    places: Dict[Tuple[str, str], int] = {}
    for wanted in (HERE / "sample.expected").read_text().splitlines():
        file, number, rest = wanted.split(" ", 2)
        word = rest.rsplit(" ", 1)[0]
        line = (HERE / file).read_text().splitlines()[int(number) - 1]
        # A line's words are asked about from left to right.
        at = line.index(word, places.get((file, number), 0))
        places[file, number] = at + 1
        print(file, number, word, sort_of(scopes(grammar, line)[at]))
    for file in ("vocabulary.text", "script.text"):
        lines = [line for line in (HERE / file).read_text().splitlines() if not line.startswith("--")]
        if not re.search(grammar["firstLineMatch"], lines[0]):
            raise SystemExit(f"{file}: the first line is not known")


def reader_words() -> List[str]:
    """The words that the reader of texts expects: those of its constants, and those it is told to take."""
    found = {"vocabulary", "script", "name", "role"}
    for path in (ROOT / "rust" / "desk" / "src" / "text").glob("*.rs"):
        source = path.read_text()
        lists = re.findall(r"const \w+: \[&str; \d+\] = \[(.*?)\];", source, re.DOTALL)
        lists += re.findall(r"choose\(&\[(.*?)\]", source, re.DOTALL)
        lists += re.findall(r"const \w+: &str = (\"[A-Za-z][A-Za-z:]*\");", source)
        lists += re.findall(r"\.(?:expect|keyword)\((\"[A-Za-z][A-Za-z:]*\")\)", source)
        lists += re.findall(r"read_link\(\w+, (\"[A-Za-z][A-Za-z:]*\")\)", source)
        found.update(word for words in lists for word in re.findall(r'"([A-Za-z][A-Za-z:]*)"', words))
    return sorted(found)


def words() -> None:
    """Fails where a word is not highlighted."""
    grammar = json.loads((TEXTMATE / "judge.tmLanguage.json").read_text())
    vim = (ROOT / "editors" / "vim" / "syntax" / "judge.vim").read_text()
    listed = {word for line in re.findall(r"syntax keyword \w+ (.*)", vim) for word in line.split()}
    listed.update("owl:" + word for words in re.findall(r"owl:\\%\((.*?)\\\)", vim) for word in words.split("\\|"))
    known = reader_words()
    missing = [word for word in known if not all(scopes(grammar, word)) or word not in listed]
    if missing or len(known) < 25:
        raise SystemExit(f"editors: not highlighted: {missing}, of {len(known)}")
    print(f"editors: each of the {len(known)} words of texts is highlighted")


def problems() -> None:
    """Prints what the problem matcher of VS Code finds."""
    package = json.loads((TEXTMATE / "package.json").read_text())
    version = re.search(r'^version = "(.*)"$', (ROOT / "Cargo.toml").read_text(), re.MULTILINE)
    if version is None or package["version"] != version.group(1):
        raise SystemExit(f"editors: the version of package.json is {package['version']}")
    for part in ("grammars/0/path", "languages/0/configuration"):
        kind, index, field = part.split("/")
        json.loads((TEXTMATE / package["contributes"][kind][int(index)][field]).read_text())
    pattern = package["contributes"]["problemMatchers"][0]["pattern"]
    for line in sys.stdin:
        match = re.search(pattern["regexp"], line.rstrip("\n"))
        if match is not None:
            print(*(match.group(pattern[part]) for part in ("file", "line", "column", "severity", "code")))


if __name__ == "__main__":
    {"tokens": tokens, "words": words, "problems": problems}[sys.argv[1]]()
