#!/usr/bin/env python3
"""Times `clean serial` on generated class files whose sizes double.

Four kinds of files: `tokens` is refused at its first token, so that reading ends with the tokens and their kinds;
`whole` is read, its names looked up, solved and reported; `edges` has methods that call each other from loops, so that
most of the time is the solver's; `heap` has methods that pass objects on through stores, loads and calls, so that it also
searches for aliases. Prints the size, seconds of user time, megabytes a second, path edges a second, and
the peak of memory as a multiple of the size. Run it from the project's root after `./clean` was built:

    bench/serial.py [LARGEST_IN_MB [MOST_METHODS]]
"""
import os
import pathlib
import sys
import tempfile

ROOT = pathlib.Path(__file__).resolve().parent.parent
PROGRAM = ROOT / "crates/clean_cli/out/clean_cli"
LISTS = b"<S: int src()> -> _SOURCE_\n<S: void snk(int)> -> _SINK_\n"
LINES = (
    b"        value = staticinvoke <com.example.Device: java.lang.String getId(int,int)>(other, 17);\n"
    b"        other = 0;\n"
    b"        staticinvoke <com.example.Net: void send(java.lang.String)>(other);\n"
)
HEAD = b"public class A extends java.lang.Object\n{\n    public static void m()\n    {\n        int value, other;\n"
FOOT = b"        return;\n    }\n}\n"
START = (
    "    public static void m()\n    {\n        int value;\n        value = staticinvoke <S: int src()>();\n"
    "        value = staticinvoke <A: int m0(int)>(value);\n        staticinvoke <S: void snk(int)>(value);\n"
    "        return;\n    }\n"
)
# Locals a to d take the value in turn, in a loop that calls the next method.
METHOD = (
    "    public static int m{number}(int)\n    {{\n        int a, b, c, d;\n        a := @parameter0: int;\n"
    "    again:\n        b = a + 1;\n        c = b;\n        d = neg c;\n        if d == 0 goto done;\n"
    "        a = staticinvoke <A: int m{next}(int)>(d);\n        tableswitch(a) {{ case 1: goto again; default: goto done; }}\n"
    "    done:\n        return d;\n    }}\n"
)


# Objects go into the next method and come back, through fields of each other.
# Objects go through chains of so many methods.
HEAP_CHAIN = 20
HEAP_HEAD = "        a = new A;\n        a.<A: int v> = value;\n        b = staticinvoke <A: A m{number}(A)>(a);\n"
HEAP_START = (
    "    public static void m()\n    {{\n        A a, b;\n        int value;\n"
    "        value = staticinvoke <S: int src()>();\n{heads}        value = b.<A: int v>;\n"
    "        staticinvoke <S: void snk(int)>(value);\n        return;\n    }}\n"
)
HEAP_METHOD = (
    "    public static A m{number}(A)\n    {{\n        A a, b, c, d;\n        a := @parameter0: A;\n"
    "        b = new A;\n        b.<A: A f> = a;\n        c = b;\n        d = c.<A: A f>;\n        {call}\n"
    "        c.<A: A f> = d;\n        a = b.<A: A f>;\n        return a;\n    }}\n"
)
HEAP_FIELDS = "    public A f;\n    public int v;\n"


def run(folder, text):
    """The code, the output and the usage of one command over this class file."""
    (folder / "A.jimple").write_bytes(text)
    (folder / "L").write_bytes(LISTS)
    words = [str(PROGRAM), "serial", "--entry", "<A: void m()>", "--lists", "L", "A.jimple"]
    out = folder / "out"
    child = os.fork()
    if child == 0:
        os.chdir(folder)
        os.dup2(os.open(out, os.O_WRONLY | os.O_CREAT | os.O_TRUNC), 1)
        os.dup2(os.open("/dev/null", os.O_WRONLY), 2)
        os.execv(words[0], words)
    _, status, usage = os.wait4(child, 0)
    return os.waitstatus_to_exitcode(status), out.read_text(), usage


def show(kind, text, result):
    code, output, usage = result
    seconds = max(usage.ru_utime, 0.01)
    edges = sum(int(line.split()[1]) for line in output.splitlines() if line.startswith("edges "))
    print(
        f"{kind:6} {len(text) / 1e6:7.1f} MB  code {code}  {seconds:6.2f} s  {len(text) / 1e6 / seconds:7.1f} MB/s  "
        f"{edges:9} edges  {edges / seconds:10.0f} edges/s  memory {usage.ru_maxrss * 1024 / len(text):5.1f} times"
    )


def methods(count):
    calls = (METHOD.format(number=number, next=(number + 1) % count) for number in range(count))
    return ("public class A extends java.lang.Object\n{\n" + START + "".join(calls) + "}\n").encode()


def heap(count):
    heads = "".join(HEAP_HEAD.format(number=number) for number in range(0, count, HEAP_CHAIN))
    bodies = (
        HEAP_METHOD.format(
            number=number,
            call="nop;" if (number + 1) % HEAP_CHAIN == 0 else f"d = staticinvoke <A: A m{number + 1}(A)>(d);",
        )
        for number in range(count)
    )
    start = HEAP_START.format(heads=heads)
    return ("public class A extends java.lang.Object\n{\n" + HEAP_FIELDS + start + "".join(bodies) + "}\n").encode()


def main():
    largest = int(sys.argv[1]) if len(sys.argv) > 1 else 80
    most = int(sys.argv[2]) if len(sys.argv) > 2 else 32_000
    print("processors", os.cpu_count())
    with tempfile.TemporaryDirectory() as name:
        folder = pathlib.Path(name)
        for kind, head in (("tokens", b"x " + HEAD), ("whole", HEAD)):
            size = 5
            while size <= largest:
                text = head + LINES * (size * 1_000_000 // len(LINES)) + FOOT
                show(kind, text, run(folder, text))
                size *= 2
        for kind, make in (("edges", methods), ("heap", heap)):
            count = 1_000
            while count <= most:
                text = make(count)
                show(kind, text, run(folder, text))
                count *= 2


if __name__ == "__main__":
    main()
