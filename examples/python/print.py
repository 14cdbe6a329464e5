"""Does what `witc print`, `module`, `strip` and `compat PREV NEW` do, by the library. Behind `./install PREFIX`:

    PYTHONPATH=PREFIX/share/witc python3 examples/python/print.py print < package.wasm
"""

import os
import sys

import witc


def told(words, data):
    """What `witc` writes and its status."""
    try:
        if words[0] == "print":
            return witc.package_text(data).encode(), witc.DONE
        if words[0] == "module":
            return witc.module_text(data).encode(), witc.DONE
        if words[0] == "strip":
            return witc.module_strip(data), witc.DONE
        witc.require_compatible(data, os.fsencode(words[1]), os.fsencode(words[2]))
        return b"compatible\n", witc.DONE
    except witc.Refusal as refusal:
        print(refusal, file=sys.stderr)
        return b"", witc.BAD_ARGUMENT if refusal.code in ("NO_SUCH_WORLD", "NOT_UTF8") else witc.REFUSED


def main(words):
    if not (len(words) == 1 and words[0] in ("print", "module", "strip") or len(words) == 3 and words[0] == "compat"):
        print("usage: print.py print | module | strip | compat PREV NEW", file=sys.stderr)
        return 2
    answer, status = told(words, sys.stdin.buffer.read())
    sys.stdout.buffer.write(answer)
    return status


if __name__ == "__main__":
    sys.exit(main(sys.argv[1:]))
