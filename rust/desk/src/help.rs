//! What each command is for, and how it is called; the forms of texts and tables; the refusals.

use judge::Rule;
use std::borrow::Cow;

/// The page of the command as a whole.
pub fn all() -> String {
    ALL.to_string()
}

const ALL: &str = "\
desk: the duty vocabulary judge for people and scripts

usage: desk COMMAND .. [--json] [--quiet] [--color[=WHEN]]

  check VOCABULARY ..           whether a vocabulary is accepted, and whether its statements contradict each other
  show FILE ..                  a vocabulary or a script as text
  record VOCABULARY N           one record, its fields and what it says
  compare VOCABULARY A B        whether two terms are equal in every finite interpretation that satisfies the statements
  within VOCABULARY A B         whether one term lies within another in every such interpretation
  why VOCABULARY A B            a minimal set of statements that makes A equal to B, or (--within) lie within it
  classify VOCABULARY ..        the names from the broadest down: equal ones, and the nearest broader ones of each
  verify VOCABULARY SCRIPT      whether a script proves that one term lies within another
  columns VOCABULARY [OWNER]    the columns that a script may use
  assemble TEXT -o FILE         a vocabulary or a script from its text
  new FILE --roles N            makes an empty vocabulary
  add FILE term KIND ..         adds a term to a vocabulary
  add FILE statement A B        adds a statement at the end of its chain
  edition FILE 1|2              converts a vocabulary to an edition
  recheck TABLE                 every line of a filed table
  diff OLD NEW [TABLE]          what changed between two vocabularies, and which filed lines change their verdict

'desk COMMAND --help' says more, and so do 'desk help texts', 'desk help tables' and 'desk help refusals'.
An input of '-' is standard input. Where a vocabulary or a script is taken, its text is taken as well, but for 'add' and
'edition'.
'--' ends the options: what follows is taken as it is.

  --json           writes one JSON object a line instead
  -q, --quiet      writes no answer; the exit status tells
  --color[=WHEN]   colours: auto (on terminals; the usual), always, never
  -h, --help       -V, --version

exit status: 0 holds, 1 does not hold, 2 refused input, 64 and up usage and I/O errors:
  64 the command line is not understood   66 an input cannot be read     70 an error in desk itself
  71 a thread cannot be made              73 an output cannot be made    74 writing the answer failed
  130 interrupted
";

/// A page for each command and topic.
const PAGES: [(&str, &str); 17] = [
    ("check", CHECK),
    ("show", SHOW),
    ("record", RECORD),
    ("compare", COMPARE),
    ("within", WITHIN),
    ("why", WHY),
    ("classify", CLASSIFY),
    ("verify", VERIFY),
    ("columns", COLUMNS),
    ("assemble", ASSEMBLE),
    ("new", NEW),
    ("add", ADD),
    ("edition", EDITION),
    ("recheck", RECHECK),
    ("diff", DIFF),
    ("texts", TEXTS),
    ("tables", TABLES),
];

const CHECK: &str = "\
usage: desk check VOCABULARY .. [--format gcc|sarif] [--json]

Whether each vocabulary is accepted (refusals 1 to 8 and 28), with its edition, the number of its records, names,
restrictions, statements and roles, and whether it can be compared and classified (at most 12 atoms). A header of
edition 2 holds the number of atoms. If the vocabulary can be compared, and no finite interpretation satisfies its
statements, that is said: they then contradict each other, and all terms are equal.

  --format gcc     a line for each fault and refusal (error) and for statements that contradict each other (warning), as
                   compilers write it: FILE:LINE:COLUMN: error: MESSAGE [ID]. All faults are listed; where nothing is
                   found, nothing is written
  --format sarif   the same as one log of all files, for code review: SARIF 2.1.0, with the SHA-256 of each file

exit status: 0 accepted, 2 refused; of several the greatest
";

const SHOW: &str = "\
usage: desk show FILE .. [--json]

Prints a vocabulary or a script as text, a line for each record: terms and statements in OWL 2 functional syntax, with
c7 for the name labelled 7, r0 for role 0 and #4 for the term of record 4. The header's line says the edition. 'desk
assemble' makes the same bytes of it. A vocabulary that is refused is shown as well, and the refusal beside it, on
standard error; a record without a form is shown as 'raw', as is a header of edition 2 with a wrong number of atoms. A
file whose length is refused is not shown. What begins as a script (w0 is 32) is taken for one; whether it proves
something, 'desk verify' says.

exit status: 0 shown, 2 refused; of several the greatest
";

const RECORD: &str = "\
usage: desk record VOCABULARY N [--json]

Prints the bytes and the fields of record N (0 is the header) and what it says. Works for a vocabulary that 'check'
refuses, too, unless its length is refused. Of an accepted one N may be a term, as for 'compare', which a record says.

exit status: 0 printed, 2 refused (1: length, 9: past the end)
";

const COMPARE: &str = "\
usage: desk compare VOCABULARY A B [--words TEXT] [--survivors FILE] [--dot FILE] [--svg FILE] [--json]

Whether the terms A and B, of a vocabulary of at most 12 atoms, are equal in every finite interpretation that satisfies the
statements. If they are different, an element of such an interpretation tells them apart: the names and restrictions that
hold at it are listed, and which of the two terms it belongs to. Where a restriction tells the terms apart, lines as 'by r0
to element 2: c2, not c3' lead from element to element to what does, in a small counter-model. It is said where nothing can
belong to A, to B or to either in such an interpretation, and where there is none.

A and B are each the number of a record, 4 or '#4'; a name, c7 or what it is called; or the text of a term, as
'ObjectUnionOf(c1 #4)'. A term that no record says is added to a copy, by the library's own writer; the file stays as it
is. A restriction among what is added is one atom more. A name has to be there: it is not added.

  --words TEXT       the text of the vocabulary, whose comments say what each record is called
  --survivors FILE   writes the 512 bytes that describe the interpretation: bit t mod 8 of byte t div 8 is 1 for a
                     survivor t (nothing is written where the input is refused); where a restriction is added, it is
                     the last atom, as if its record were there
  --dot FILE         draws the counter-model for Graphviz ('dot -Tsvg FILE')
  --svg FILE         draws it for a browser; equal terms have none, and then no drawing is written

exit status: 0 equal, 1 different, 2 refused
";

const WITHIN: &str = "\
usage: desk within VOCABULARY A B [--words TEXT] [--dot FILE] [--svg FILE] [--json]

Whether the term A lies within the term B, of a vocabulary of at most 12 atoms, in every finite interpretation that
satisfies the statements. The terms are given as for 'compare'. No script is needed. If it does not, an element of A outside
B is named and explained as by 'compare'.

It is asked of the proved comparison, as whether \"A and B\" is equal to A: of a copy of the vocabulary with the record
\"A and B\" at its end, or of a record that says it already (or \"A or B\", compared with B). That this comes to the same is
tested, not proved. A vocabulary of 512 records has no room for another: if none says it, and A and B are not equal, that
is the answer, with status 2.

  --words TEXT   the text of the vocabulary, whose comments say what each record is called
  --dot FILE     draws the counter-model for Graphviz, as by 'compare'
  --svg FILE     draws it for a browser

exit status: 0 within, 1 not within, 2 refused
";

const WHY: &str = "\
usage: desk why VOCABULARY A B [--within] [--all N] [--words TEXT] [--json]

Why the term A is equal to the term B: a set of statements that are enough for it, and of which none can be left out.
Editors of ontologies know it as a justification. The terms are given as for 'compare'. Statements are taken off the chain
of a copy, first many at once, in the end one by one, and each time the proved comparison is asked; what cannot go stays. The
set is minimal: no part of it is enough. There may be other minimal sets, smaller ones among them.

It is said where these statements contradict each other, or where by them nothing can belong to A. Where A is not equal to
B, or does not lie within it, the answer is that of 'compare' or 'within'. The vocabulary has at most 12 atoms. With
--within, one of 512 records needs a record that says \"A and B\" or \"A or B\", as for 'within'.

  --within       why A lies within B
  --all N        up to N such sets, 1 to 64, the smallest first, and whether there are others. Looking for them may take
                 long; interrupted, it tells what it has found
  --words TEXT   the text of the vocabulary, whose comments say what each record is called

exit status: 0 equal (within), 1 different (not within), 2 refused, 130 interrupted
";

const CLASSIFY: &str = "\
usage: desk classify VOCABULARY .. [--words TEXT] [--dot FILE] [--json]

The names of each vocabulary, of at most 12 atoms, as a tree from the broadest down: below a name are those of which it is
a nearest broader one, so that they lie within it, but not the other way round, and no name is strictly between, in every
finite interpretation that satisfies the statements. Names that are equal in every such interpretation are on one line. A
name that has several nearest broader ones is below each, with all that is below it. Names to which everything belongs are
beside owl:Thing. Names to which nothing can belong are told apart, as empty: they lie within every name. It is said where
no finite interpretation satisfies the statements.

Of several vocabularies each is answered in order, in one run, and a last line counts them; one that is refused or cannot
be read does not keep the others from being answered.

  --words TEXT   the text of the vocabulary, whose comments say what each record is called; of several vocabularies, for
                 those that have its bytes; it is said where none has
  --dot FILE     writes a drawing for Graphviz, as ontology editors show it: a node for each name, or names that are
                 equal, an arrow to each nearest broader one, owl:Thing on top; of several vocabularies each in a frame of
                 its own. Nothing is written unless all are classified

--json writes an object for each vocabulary; of several, a last one counts them.

exit status: 0 classified, 2 refused; of several the greatest
";

const VERIFY: &str = "\
usage: desk verify VOCABULARY SCRIPT [--trace] [--words TEXT] [--json]

Whether the script proves that its first term lies within its second, over the vocabulary: accepted with the number of
its steps, or the refusal, with what is wrong at the record. What a refused script claims may hold all the same.

  --trace   prints each step with the goal, the column that it uses with the terms put in, and the open frames after
            it: a frame's goal first, then its other open literals; '>' marks the last frame, whose goal is the next.
            A refused step is the last, with the reason. What is refused by 1 to 19 or 28 has no trace. Where the
            script is given as a text, each step has its line.
  --words TEXT   the text of the vocabulary, whose comments say what each record is called; a trace says its goals in
                 words, too

exit status: 0 accepted, 1 the script keeps the form, but its chain is no derivation of at most 64 open frames (20 to 25;
after 23 it may be one of more), 2 refused input
";

const COLUMNS: &str = "\
usage: desk columns VOCABULARY [OWNER] [--words TEXT] [--json]

Lists the columns that the steps of a script may use: for each owner, or for record OWNER alone (0 is the query), its
columns by number, and in each the literals by position. OWNER may be a term, as for 'compare', which a record says. C5(x)
says that x is in the term of record 5, r0(x,y) that the pair is in role 0, f7 is the function of record 7, and a the
constant. Where a y stands, a step has to give a term for it. A name has no columns, nor has a statement off the chain.

  --words TEXT   the text of the vocabulary, whose comments say what each record is called

exit status: 0 listed, 2 refused, or there is no record OWNER
";

const ASSEMBLE: &str = "\
usage: desk assemble TEXT -o FILE [--force] [--json]

Makes the bytes of a vocabulary or a script from its text ('desk help texts'; 'desk show' prints it). A vocabulary that
the library refuses is not written, nor is one that has a fault in its text: all faults are told, each with its line and
column. Of a script the length and the header are checked here (13 and 14); the rest takes its vocabulary: 'desk verify'.
Terms that stand in a line, and that no line says, are made before it: how many, and which names are among them, is said.

  -o FILE, --output FILE   the file to write, which may not be TEXT itself under any name; '-' is standard output. A
                           file is replaced whole or not at all
  --force                  writes what is refused, too (for tests)

What the text calls names and roles is written beside FILE, as FILE.names, with the SHA-256 of FILE's bytes in its first
line. Every command that reads FILE finds it there, and uses it only where that fits. A text that gives no names lets a
FILE.names stay that fits, and removes one of other bytes.

exit status: 0 written, 2 refused, or a fault in the text, 73 FILE or FILE.names cannot be made
";

const NEW: &str = "\
usage: desk new FILE --roles N [--json]

Makes an empty vocabulary of N roles, r0 to rN-1: its header alone, 8 bytes, of edition 2. 'desk add' adds to it. A FILE
that is there already stays as it is, whatever it holds.

  --roles N   the number of roles, 0 to 64; it has to be given, since no addition changes it

exit status: 0 written, 2 refused (2: over 64 roles), 73 FILE is there already, or cannot be made
";

const ADD: &str = "\
usage: desk add FILE (term KIND .. | statement A B) [--json]

Adds one record to the vocabulary FILE, by the library's own writer, and prints its number and its line: a term, or the
statement that A lies within B, at the end of the chain. FILE is replaced whole or not at all; it has to be a vocabulary's
bytes, and not a text. It keeps its edition; a header of edition 2 keeps the true number of atoms. What the library refuses
is not added: of FILE 1 to 8 and 28; 27 if it has 512 records; of the new record 3 to 7.

  term c7                          the name labelled 7 (kind 3)
  term owl:Thing                   top (1); owl:Nothing is bottom (2)
  term ObjectComplementOf T        not (4)
  term ObjectIntersectionOf T T    and (5); ObjectUnionOf is or (6)
  term ObjectSomeValuesFrom r0 T   some, of role 0 (7); ObjectAllValuesFrom is all (8)
  term KIND A B                    by the number of the kind, as 'term 5 1 2'; what it does not use may be left out
  term 'ObjectUnionOf(c1 #2)'      a whole term, as texts have it; so is a statement: 'SubClassOf(c1 #2)'

T, A and B are terms: 4 or '#4' is the term of record 4; c7, what c7 is called, or a term written out, stands for the first
record that says it, as in texts ('desk help texts'). There has to be one: an operand that no record says is not added by
the way, but told. A role is r0, 0 or what it is called. Shells take '#', blanks and parentheses for their own where they
are not quoted.

Where an earlier record says the same as the new one, that is said. Runs at once on one FILE add one after the other. If
another program writes to it meanwhile, it stays as that has left it, and nothing is added (73).

exit status: 0 added, 2 refused, or a fault in a text, 66 FILE cannot be read or is a text, 73 FILE, or FILE.names beside
it, cannot be replaced
";

const EDITION: &str = "\
usage: desk edition FILE (1 | 2) [--json]

Converts the vocabulary FILE to an edition of the header, 1 or 2. Edition 2, which new vocabularies have, holds the number
of atoms; edition 1 does not. No other byte changes, and comparison, classification and scripts say the same of both. FILE
is replaced whole or not at all; it has to be a vocabulary's bytes, and not a text, whose header says the edition. One that
has the edition already stays as it is. What the library refuses (1 to 8 and 28) is not converted.

exit status: 0 converted or unchanged, 2 refused, 66 FILE cannot be read or is a text, 73 FILE cannot be replaced
";

const RECHECK: &str = "\
usage: desk recheck TABLE [-j N] [--strict] [--explain] [--words TEXT] [--html FILE] [--json]

Rechecks a filed table ('desk help tables'). Each line that does not hold is printed when it is found, in the order of the
lines, as TABLE:LINE:COLUMN with the reason below it; then a summary. Lines that hold only because nothing satisfies the
statements, or because nothing can belong to the terms, are marked. A progress bar is shown where standard error is a
terminal.

  -j N, --jobs N   judges with N threads, 1 to 64 (default 1); the answer is the same for every N
  --strict         lines that are so marked fail, with status 1
  --explain        explains each line that does not hold, as 'desk compare' does, and why a script is refused
  --words TEXT     the text of a vocabulary, for lines whose vocabulary has its bytes; implies --explain
  --html FILE      writes a page to file: the date, the versions, the summary, each file with its size and SHA-256, and each
                   line with its verdict and its terms; of those that do not hold what tells the terms apart, drawn. It is
                   written when all lines are judged, whole or not at all. SOURCE_DATE_EPOCH sets the date

--json writes an object for each such line, and a last one with the summary.

exit status: the greatest of the lines' own: 0 all hold (or there is none), 1 some do not, 2 some input was refused or a
line is malformed, 66 some file, or the table, cannot be read; 74 standard output was closed, 130 interrupted
";

const DIFF: &str = "\
usage: desk diff OLD NEW [TABLE] [--json]

What changed between two vocabularies, by what their records say: a term is what it is made of, whatever its number.
Records that NEW does not say stand with '-', records that OLD does not say with '+'; then statements that were put on the
chain or taken off it, the numbers of records that moved, what is called otherwise, and, where both vocabularies can be
classified (at most 12 atoms), the names that have other nearest broader names or equal ones.

With TABLE, a filed table ('desk help tables'), each line that names the file OLD or the file NEW is judged by both, with its
words as they are, as it will be read when NEW takes the place of OLD. Told are the lines whose verdict changes, and those
in which A or B, by its number or by a name, is another term in NEW.

exit status: 0 no change, 1 changed, 2 a vocabulary is refused or a line is malformed, 66 a file cannot be read
";

const TEXTS: &str = "\
The texts of vocabularies and scripts

A line for each record, the header first; record numbers before the lines may be left out. '--' begins a comment, which
says what people call the record of the line. Blanks, empty lines, CR LF line ends and a byte order mark do not matter.
Numbers are 0 to 65535. A text has at most 1,048,576 bytes.

  vocabulary roles N              the header: the number of roles; it is of edition 2
  vocabulary roles N edition 1    the same of edition 1; 'edition 2' may be said too
  c7, owl:Thing, owl:Nothing      the name labelled 7, top, bottom
  ObjectComplementOf(T)           not
  ObjectIntersectionOf(T T ..)    and; of three or more, the first two make one, which makes one with the next
  ObjectUnionOf(T T ..)           or, in the same way
  ObjectSomeValuesFrom(r0 T)      some, of role 0
  ObjectAllValuesFrom(r0 T)       all, of role 0
  SubClassOf(T T)                 a statement: the first lies within the second
  EquivalentClasses(T T ..)       statements: each lies within the next, and the last within the first
  DisjointClasses(T T ..)         statements: each lies within ObjectComplementOf(T) of each later one
  ObjectPropertyDomain(r0 T)      SubClassOf(ObjectSomeValuesFrom(r0 owl:Thing) T)
  ObjectPropertyRange(r0 T)       SubClassOf(owl:Thing ObjectAllValuesFrom(r0 T))
  raw KIND SECOND A B NEXT        any record, by its fields; the header as 'vocabulary raw ..'
  name c7 \"returned sample\"       what the name labelled 7 is called; these lines make no record, and may stand anywhere
  role r0 \"is accompanied by\"     what role 0 is called

T is #4, the term of record 4, or a term written out, to a nesting of 16, which stands for the first earlier record that
says it. If there is none, one is made right before the line: inner terms before outer ones, the left before the right.
'desk assemble' says how many were made. The number before a line is that of its own record, or of its first statement.
In a term \"returned sample\" stands for the name, and \"is accompanied by\" for the role, that is called so. In the quotes \\\" is
a double quote, \\\\ a backslash, \\u{e4} a character by its number. What something is called has 1 to 200 characters, no
parentheses, control characters or blanks at its ends, does not begin with a double quote, and is no number, label, role or
word of texts. It is called nothing else, and no other label, or role, is called so.

  script #4 within #3             the header: the query, by records of the vocabulary
  a, f6(T)                        the constant, which has to be record 1; the function of record 6 of the vocabulary
  start 0                         a start with a column of the query
  extend owner 5 column 0 x T y T at 1
                                  an extension: owner (0: the query), column, terms for x and y, position; 'y T' is left
                                  out where no y stands; 'desk columns' lists the columns
  reduce 2                        a reduction against frame 2
  raw W0 W1 W2 W3 W4 W5 W6 W7     any record, by its words; the header as 'script raw ..'

T is a, f6(T) or #2, the term of record 2 of the script. A term may stand under several records, and is the same term in
each; written out, it stands for the first of them.

Statements, and steps, are chained in the order of their lines. 'off' before one leaves it out of the chain; its link is
0. Any other link is written at the end of the line: 'first N' in the header, 'next N' in a statement or step. A raw
record is not chained by itself; its link is one of its numbers.

A vocabulary and a script for it:

  vocabulary roles 0              script #4 within #3
  c1   -- sample                  a
  c2   -- returned                start 1
  c3   -- under relief            extend owner 5 column 0 x a at 1
  ObjectIntersectionOf(c1 c2)     extend owner 0 column 0 x a at 0
  SubClassOf(#4 c3)
";

const TABLES: &str = "\
Filed tables, for 'desk recheck'

A line is VOCABULARY A B CLAIM. A and B are terms, as for 'desk compare'. The claim is one of

  equal            the terms A and B are equal
  different        they are not
  within           A lies within B, as the comparison tells
  within SCRIPT    A lies within B by a script, which is accepted and has the query \"A within B\"; of terms that records
                   say, since a script names records

in every finite interpretation that satisfies the vocabulary's statements. The first three take at most 12 atoms.

  -- filed in March
  v.vocabulary 4 3 different
  v.vocabulary 4 3 within
  v.vocabulary 4 3 within four-within-three.script
  v.vocabulary ObjectIntersectionOf(c1 c2) c3 within

Files are named relative to the table's directory ('-': the current one), as bytes or as texts; only regular files are
read, and '-' is a file's name. Fields are set apart by blanks, or by tabs if there is one between them (then names may
have blanks). In A and B blanks within parentheses or quotation marks set nothing apart. Empty lines and lines that begin
with '--' are left out. CR LF line ends and a byte order mark do not matter. A line has at most 65,536 bytes. One that is
longer, is no UTF-8 or has a byte 0 is malformed; the others are judged. A table may have any length; one without lines
holds.

A line comes out as one of: it holds; it holds only because nothing satisfies the statements, or because nothing can
belong to the terms; it does not hold; an input is refused; the line is malformed; a file cannot be read.
";

/// Every refusal with its sentence, from the wrapper's table.
fn refusals() -> String {
    let mut page = "\
Refusals: the first in the table's order is given, with the place where it applies

"
    .to_string();
    for rule in (1..=u8::MAX)
        .map(Rule::of)
        .take_while(|rule| !matches!(rule, Rule::Unlisted(_)))
    {
        page.push_str(&format!("  {:>2}  {}\n", rule.number(), rule.words()));
    }
    page.push_str(
        "
1 to 8 are of vocabularies and of what is added to them, 28, after 8, of the header of edition 2, 9 of 'record', 10 of the
terms asked about, 11 and 12 of 'compare' and 'classify', 26 of 'classify', 27 of 'add' and of terms that are added for a
question, 13 to 19 of the form of scripts (status 2), 20 to 25 of the chain of steps (status 1). docs/FORMATS.md has the
formats and each rule in full.
",
    );
    page
}

/// The page of a command or a topic.
pub fn page(name: &str) -> Option<Cow<'static, str>> {
    if name == "refusals" {
        return Some(refusals().into());
    }
    let found = PAGES.iter().find(|(page, _)| *page == name);
    found.map(|(_, page)| Cow::from(*page))
}

/// The names of the pages.
pub fn names() -> impl Iterator<Item = &'static str> {
    PAGES.iter().map(|(name, _)| *name).chain(["refusals"])
}
