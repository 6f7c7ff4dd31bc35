"""Makes the pictures anew from runs of the program.

Words: the program, and the folder that gets them, docs/pictures without.
"""
import sys
import tempfile
from pathlib import Path

from checkpoint import checkpoint_picture
from crash import crash_picture
from heal import heal_picture


def main():
    program = Path(sys.argv[1]).resolve()
    folder = Path(sys.argv[2]) if len(sys.argv) > 2 else Path(__file__).parent
    with tempfile.TemporaryDirectory() as work:
        (folder / "crash.svg").write_text(crash_picture(program, Path(work)), encoding="utf-8")
        (folder / "checkpoint.svg").write_text(checkpoint_picture(program, Path(work)), encoding="utf-8")
    (folder / "heal.svg").write_text(heal_picture(program), encoding="utf-8")


main()
