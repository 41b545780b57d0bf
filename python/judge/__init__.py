"""The duty vocabulary judge from Python: a wrapper of the eight calls of libjudge, over ctypes alone.

Every call takes bytes of any content and length, and answers or raises Refusal; "different" is an answer. What an answer
means (docs/FORMATS.md) is proved of the library's source; this wrapper, which takes the numbers apart, is tested.

>>> import judge
>>> terms = judge.Builder(roles=0)
>>> sample, returned, relief = terms.name(1), terms.name(2), terms.name(3)
>>> both = terms.and_(sample, returned)
>>> statement = terms.statement(both, relief)
>>> judge.compare(bytes(terms), both, relief).verdict
<Verdict.DIFFERENT: 'different'>

What is read is bytes, a bytearray, a memoryview or any other contiguous buffer; what is written to is a buffer that is not
read-only. Numbers that do not fit their field raise ValueError; nothing is cut. Calls may run in several threads at once:
what a call reads is copied where another thread could change it, and calls that write to a buffer of the caller's keep
other threads waiting. A call runs on the caller's stack and needs up to STACK_BYTES of it, which the threads of Python have
unless threading.stack_size() was set to less.

The shared object is looked for where JUDGE_LIBRARY says; else beside this package, in the checkout that it is part of, in
the lib below which it is installed, and where the system looks for libjudge.so.1.
"""

from __future__ import annotations

from ._builder import Builder
from ._calls import (
    Classification,
    Comparison,
    Kind,
    Record,
    Relation,
    Survivors,
    Verdict,
    add_statement,
    add_term,
    check_script,
    check_vocabulary,
    classify,
    compare,
    make_vocabulary,
    record,
    relation,
)
from ._edition import Edition, atoms, edition, set_edition
from ._limits import (
    ATOMS,
    FRAMES,
    RECORD_BYTES,
    RECORDS,
    ROLES,
    SCRIPT_BYTES,
    SCRIPT_RECORD_BYTES,
    SCRIPT_RECORDS,
    STACK_BYTES,
    SURVIVOR_BYTES,
    TAXONOMY_BYTES,
    VERSION,
    VOCABULARY_BYTES,
)
from ._refusals import Place, Refusal, Rule

__version__ = VERSION
# So that a traceback calls it as users do.
Refusal.__module__ = __name__

__all__ = [
    "ATOMS",
    "Builder",
    "Classification",
    "Comparison",
    "Edition",
    "FRAMES",
    "Kind",
    "Place",
    "RECORDS",
    "RECORD_BYTES",
    "ROLES",
    "Record",
    "Refusal",
    "Relation",
    "Rule",
    "SCRIPT_BYTES",
    "SCRIPT_RECORDS",
    "SCRIPT_RECORD_BYTES",
    "STACK_BYTES",
    "SURVIVOR_BYTES",
    "Survivors",
    "TAXONOMY_BYTES",
    "VERSION",
    "VOCABULARY_BYTES",
    "Verdict",
    "add_statement",
    "add_term",
    "atoms",
    "check_script",
    "check_vocabulary",
    "classify",
    "compare",
    "edition",
    "make_vocabulary",
    "record",
    "relation",
    "set_edition",
]
