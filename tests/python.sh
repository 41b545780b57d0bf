#!/usr/bin/env bash
# The package judge of python/ over a shared object made of the archive: its unit tests, the stored cases, the examples of
# its docstrings and of docs/DESK.md, and its types where mypy is there.
# usage: tests/python.sh [PYTHON]   (target/staticlib/libjudge.a must be built)
set -eu
cd "$(dirname "$0")/.."
python=${1:-python3}
shared=target/shared/libjudge.so.1
if ! command -v "$python" > /dev/null; then
    echo "python: not checked, since $python is missing"
    exit 0
fi
if [ ! -f "$shared" ] || [ target/staticlib/libjudge.a -nt "$shared" ]; then
    mkdir -p target/shared
    gcc -shared -o "$shared.$$" -Wl,-soname,libjudge.so.1 -Wl,-z,defs -Wl,-z,text \
        -Wl,--whole-archive target/staticlib/libjudge.a -Wl,--no-whole-archive
    mv "$shared.$$" "$shared"
fi
JUDGE_LIBRARY=$PWD/$shared
PYTHONDONTWRITEBYTECODE=1
export JUDGE_LIBRARY PYTHONDONTWRITEBYTECODE
cd python
"$python" -W error -m unittest --quiet
if "$python" -m mypy --version > /dev/null 2>&1; then
    "$python" -m mypy --strict judge
elif command -v mypy > /dev/null; then
    mypy --strict judge
else
    echo "python: types not checked, since mypy is missing"
fi
echo "python: the package's tests agree"
