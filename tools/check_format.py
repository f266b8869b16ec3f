#!/usr/bin/env python3
"""Names the sources, definitions and proofs that are not in the layout of `rattle fmt`, which `rt ci` refuses.

    tools/check_format.py

Nothing of the checkout is changed. The status is 1 where a file is not in the layout, which is named then: run `rt fmt`
in its crate. Without rattle on the path nothing is looked at, and that is reported.
"""

import shutil
import subprocess
import sys
from pathlib import Path

ROOT = Path(__file__).resolve().parent.parent
FOLDERS = ("src", "specs", "proofs")


def laid_out_files() -> list[str]:
    """The files that have a layout, by their paths in the checkout."""
    found = []
    for crate in (ROOT / "crates").iterdir():
        for folder in FOLDERS:
            for path in (crate / folder).rglob("*"):
                if path.suffix in (".rt", ".antt"):
                    found.append(str(path.relative_to(ROOT)))
    return sorted(found)


def main() -> int:
    if shutil.which("rattle") is None:
        print("check_format.py: passed over: rattle is not on the path")
        return 0
    files = laid_out_files()
    run = subprocess.run(["rattle", "fmt", "--check", *files], cwd=ROOT, capture_output=True, text=True)
    if run.returncode != 0:
        print(f"{run.stdout}{run.stderr}check_format.py: FAILED: run `rt fmt` in the crates of these files")
        return 1
    print(f"check_format.py: all {len(files):,} files are in the layout")
    return 0


if __name__ == "__main__":
    sys.exit(main())
