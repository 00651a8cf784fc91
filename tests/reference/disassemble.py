#!/usr/bin/env python3
"""Give every module in files of lines `SHEET | ANSWER` to spirv-dis.

    disassemble.py FILE...

Fails on the first that spirv-dis does not read.
"""

import struct
import subprocess
import sys
from pathlib import Path


def modules(file):
    for line in Path(file).read_text().splitlines():
        answer = line.split("|")[-1]
        if not line.startswith("#") and "refused" not in answer:
            yield [int(word, 16) for word in answer.split()]


def main(files):
    count = 0
    for file in files:
        for words in modules(file):
            data = struct.pack(f"<{len(words)}I", *words)
            done = subprocess.run(["spirv-dis", "-"], input=data, capture_output=True)
            if done.returncode:
                sys.exit(f"{file}: spirv-dis refuses a module: {done.stderr.decode()}")
            count += 1
    if not count:
        sys.exit("no module to disassemble")
    print(f"spirv-dis reads all {count} stored modules")


if __name__ == "__main__":
    main(sys.argv[1:])
