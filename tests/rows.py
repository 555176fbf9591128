"""What scripts that run tables of rows share."""

import sys


def in_order(parts, text):
    """Whether a text has all parts, one behind the other."""
    at = 0
    for part in parts:
        at = text.find(part, at)
        if at < 0:
            return False
        at += len(part)
    return True


def end(failed):
    """Prints the rows that failed, and ends with status 1 where there is one."""
    print("\n".join(failed), file=sys.stderr, end="\n" if failed else "")
    sys.exit(1 if failed else 0)
