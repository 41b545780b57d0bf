"""The version, and the limits of the formats, as include/judge.h has them."""

from __future__ import annotations

from typing import Final

#: The version of the library that this wraps.
VERSION: Final = "1.5.0"
#: The most bytes of a vocabulary.
VOCABULARY_BYTES: Final = 4096
#: The most bytes of a script.
SCRIPT_BYTES: Final = 32768
#: The bytes of a vocabulary's record.
RECORD_BYTES: Final = 8
#: The bytes of a script's record.
SCRIPT_RECORD_BYTES: Final = 16
#: What a comparison and a classification write, and ask for.
SURVIVOR_BYTES: Final = 512
#: What a classification writes, and asks for, beside that.
TAXONOMY_BYTES: Final = 144
#: The most records of a vocabulary, header included.
RECORDS: Final = 512
#: The most records of a script, header included.
SCRIPT_RECORDS: Final = 2048
#: The most roles of a vocabulary.
ROLES: Final = 64
#: The most atoms (names and restrictions) of a vocabulary to compare or to classify.
ATOMS: Final = 12
#: The most frames that may be open together while a script is checked.
FRAMES: Final = 64
#: Stack that is enough for any call, measured (include/judge.h).
STACK_BYTES: Final = 131072
