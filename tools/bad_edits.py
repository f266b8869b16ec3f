#!/usr/bin/env python3
"""Shows what `rt ci` writes, and fails where it says of an edit that it could not be read or tried.

    rt ci 2>&1 | tools/bad_edits.py

The gate runs it so. `rt ci` fails where an edit is not refused, and passes where one is a BAD EDIT, which shows nothing
of a contract. Each line is shown as it comes. The status is 1 where a line has one of WORDS; these lines are shown once
more at the end then, and otherwise nothing is added, so that the count of `rt ci` is the last line.
"""

import sys

WORDS = (b"BAD EDIT", b"NOT TRIED")


def main() -> int:
    bad = []
    for line in sys.stdin.buffer:
        sys.stdout.buffer.write(line)
        sys.stdout.buffer.flush()
        if any(word in line for word in WORDS):
            bad.append(line.rstrip(b"\n"))
    if not bad:
        return 0
    sys.stdout.buffer.write(b"".join(b"%s\n" % line for line in bad))
    print(f"bad_edits.py: the gate has failed, as the lines above say of edits: {len(bad)}")
    return 1


if __name__ == "__main__":
    sys.exit(main())
