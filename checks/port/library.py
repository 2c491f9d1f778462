#!/usr/bin/env python3
"""Builds the static library crates/fmp_c/out/libfmp_c.a after `rt ci`.

    checks/port/library.py MARK

`rt ci` proves a static library and builds none, and `rt lib` would build each library below it anew. This builds it as
`rt lib` does, over the libraries that `rt ci` has built; the crate itself is proved once more, in three minutes. Where
one of them is not newer than the file MARK, as where `rt ci` has put back what was kept before it, `rt lib` does it. It
needs the toolchain, whose own parts it calls.
"""

import os
import shutil
import subprocess
import sys
from pathlib import Path

sys.dont_write_bytecode = True  # the folders of the checks and of the toolchain stay as they are
ROOT = Path(__file__).resolve().parents[2]


def main(mark):
    tool = shutil.which("rt")
    if tool is None:
        sys.exit("checks/port/library.py: there is no rt")
    sys.path.insert(0, os.path.dirname(os.path.realpath(tool)))
    import rtlib

    os.chdir(ROOT / "crates/fmp_c")
    crate = rtlib.Crate(os.getcwd(), str(ROOT), {})
    began = os.path.getmtime(mark)
    if not all(os.path.isdir(it.rlib) and os.path.getmtime(it.rlib) > began for it in crate.below()):
        return subprocess.call(["rt", "lib"])
    os.makedirs("out", exist_ok=True)
    return crate.build_static(["--jobs", "1", "--backend", "llvm"])


if __name__ == "__main__":
    if len(sys.argv) != 2:
        sys.exit(__doc__)
    sys.exit(main(os.path.abspath(sys.argv[1])))
