#!/usr/bin/env python3
"""Shows two texts in Neovim over `fmp_view lsp`, and compares what it shows with `neovim/shown.txt`.

    checks/editor/neovim.py [--write] [PROGRAM]

PROGRAM is crates/fmp_view/out/fmp_view where it is not given; --write writes the transcript. It needs Neovim 0.7.
"""

import argparse
import os
import shutil
import subprocess
import sys
import tempfile
from pathlib import Path

sys.dont_write_bytecode = True  # the folders of the checks stay as they are
sys.path[0] = str(Path(__file__).resolve().parents[1])  # the folder `checks`, whose folders are packages

from common.program import ROOT, located  # noqa: E402

SCRIPT = "checks/editor/neovim.py"
HERE = ROOT / "checks/editor/neovim"
CFG = """NUM_PRC(1);
CLASS(TCL_1) {
    CRE_TSK(PUMP, { TA_ACT, 0, pump, 10, 256, NULL });
    CRE_SEM(LEVEL, { TA_TFIFO, 0, 1 });
    DEF_INH(1, { 0, full });
}
"""
SRC = """task pump {
    while (1) {
    wai_sem(LEVLE);
    put(1);
    }
}
handler full { isig_sem(LEVEL); }
task spare { }
"""


def main():
    parser = argparse.ArgumentParser(description="Shows two texts in Neovim over `fmp_view lsp`.")
    parser.add_argument("--write", action="store_true", help="write the transcript")
    parser.add_argument("program", metavar="PROGRAM", nargs="?", help="crates/fmp_view/out/fmp_view")
    words = parser.parse_args()
    program = located("fmp_view", words.program)
    if shutil.which("nvim") is None:
        print(f"{SCRIPT}: there is no nvim")
        return 2
    with tempfile.TemporaryDirectory() as room:
        Path(room, "tank.cfg").write_text(CFG)
        Path(room, "tank.src").write_text(SRC)
        command = ["nvim", "--headless", "--clean", "--cmd", f"set runtimepath^={ROOT / 'editors/vim'}", "-c",
                   f"luafile {HERE / 'show.lua'}"]
        environment = {**os.environ, "FMP_SERVER": str(program), "FMP_FOLDER": room, "HOME": room}
        done = subprocess.run(command, env=environment, capture_output=True, text=True, timeout=120)
    shown = done.stdout
    transcript = HERE / "shown.txt"
    if words.write:
        transcript.write_text(shown)
    same = transcript.exists() and transcript.read_text() == shown
    print(shown if not same else "", end="")
    print(f"{SCRIPT}: {'as in the transcript' if same else 'other than the transcript'}{done.stderr}")
    return 0 if same else 1


if __name__ == "__main__":
    sys.exit(main())
