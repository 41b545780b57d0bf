#!/usr/bin/env python3
"""Brings the repository's own definitions and lemmas to the spelling of today's Rattle, once, after port.py: words in snake case,
as `record_size` for `recordSize`; a dash joins two names, and a plain word is added by `_`; a lemma that would have its function's
name gets `_lem`. names.tsv beside this script has the names, old and new; how they turn is the kit's own script.

usage: tools/port/names.py        at the top of the repository, everything else committed
"""
import pathlib
import re
import subprocess
import sys

HERE = pathlib.Path(__file__).resolve().parent
TURN = "/opt/rattle/port/notes/2026-11-18-names-are-in-snake-case/snake.py"

# Lemmas that port.py gave the name that a definition gets here. What stands behind a dot is a path or a field, and stays.
LEMMAS = {
    "first_step": ["scripts/proofs/Refinement/Starting", "scripts/proofs/run/check_chain/Proof"],
    "has_word": ["types/proofs/Refinement/Rounds"],
    "header_row": ["alike/proofs/Theorems/Conversion"],
    "in_use": ["demands/proofs/Theorems/Writing"],
    "link_fits": ["records/proofs/Theorems/Growth"],
    "met_at": ["types/proofs/Theorems/Witnesses"],
    "step_fits": ["scripts/proofs/Theorems/Form", "scripts/proofs/Refinement/Agreement"],
}
for name, files in LEMMAS.items():
    for stem in files:
        path = pathlib.Path("crates") / (stem + ".antt")
        text = path.read_text()
        path.write_text(re.sub(rf"(?<![\w.\-']){name}(?![\w\-'])", name + "_lem", text))

sys.exit(
    subprocess.run(
        [sys.executable, TURN, "--table", HERE / "names.tsv", "--only", "antt,rt", "--skip-behind", "c,tie,s,b,loop,goal", "crates"]
    ).returncode
)
