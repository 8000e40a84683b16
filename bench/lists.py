#!/usr/bin/env python3
"""Times `clean` on the longest lists that it takes.

`lists` is a list of sources and sinks of 16 MB and 300,000 lines, read for a program of one call, and then for one whose
calls name methods of the list; `components` has 4,096 components, whose class is made (`main`) and read again (`check`).
Prints the size, the code and the last line of the output, seconds of user time and the peak of memory. Run it from the
project's root after `./clean` was built:

    bench/lists.py
"""
import pathlib
import tempfile

from hostile import PROGRAMS, measured

LINES = 300_000
COMPONENTS = 4_096
KINDS = ("activity", "service", "receiver", "provider")
ENTRY = ("--entry", "<A: void m()>", "--lists", "L")


def lists():
    """A text of sources and sinks, each line of 53 or 55 bytes."""
    for number in range(LINES):
        mark = "_SINK_" if number % 2 else "_SOURCE_"
        yield f"<x.C{number:06}: java.lang.String n{number:06}(int)> -> {mark}\n"


def calls(count):
    """A class with calls of so many methods of the list."""
    yield "class A\n{\n    static void m()\n    {\n        java.lang.String s;\n"
    for number in range(count):
        yield f"        s = staticinvoke <x.C{number:06}: java.lang.String n{number:06}(int)>({number});\n"
    yield "        return;\n    }\n}\n"


def components():
    for number in range(COMPONENTS):
        yield f"{KINDS[number % 4]} x.C{number}\n"


def write(path, parts):
    path.write_bytes("".join(parts).encode())
    return path.stat().st_size / 1e6


def show(kind, size, run):
    code, last, user, seconds, memory = run
    print(f"{kind:20} {size:6.1f} MB  code {code}  {user:6.2f} s user  {seconds:6.2f} s  {memory:7.0f} MB  {last[-60:]}")


def main():
    program = next(path for path in PROGRAMS if path.exists())
    with tempfile.TemporaryDirectory() as name:
        folder = pathlib.Path(name)
        size = write(folder / "L", lists())
        for count in (1, 100_000):
            write(folder / "A.jimple", calls(count))
            show(f"list, {count} calls", size, measured(program, folder, "graph", *ENTRY, "A.jimple"))
        write(folder / "L", ())
        show("no list, 100000 calls", 0, measured(program, folder, "graph", *ENTRY, "A.jimple"))
        size = write(folder / "C", components())
        show("components", size, measured(program, folder, "main", "--components", "C"))
        size = write(folder / "M.jimple", [(folder / "out").read_text()])
        show("read again", size, measured(program, folder, "check", "M.jimple"))


if __name__ == "__main__":
    main()
