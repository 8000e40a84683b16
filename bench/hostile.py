#!/usr/bin/env python3
"""Times `clean graph` and `clean serial` on generated class files that ask for the most work of a kind.

Prints for each the size of its text, the code and the last line of the output, seconds of user time, seconds in all and
the peak of memory. Run it from the project's root after `./clean` was built:

    bench/hostile.py [KIND..]
"""
import os
import pathlib
import sys
import tempfile
import time

ROOT = pathlib.Path(__file__).resolve().parent.parent
PROGRAMS = (ROOT / "crates/clean_cli/out/clean_cli", ROOT / ".clean-build/crates/clean_cli/out/clean_cli")
LISTS = b"<S: int src()> -> _SOURCE_\n<S: void snk(int)> -> _SINK_\n"
ENTRY = "<A: void m()>"
VIRTUAL = "class A { static void m() { T t; virtualinvoke t.<T: void v()>(); return; } }\n"


def chain(count):
    """Classes each of which extends the one before it, and a virtual call of the first one's method."""
    yield VIRTUAL + "class T { void v() { return; } }\nclass C0 extends T { }\n"
    for number in range(1, count - 3):
        yield f"class C{number} extends C{number - 1} {{ }}\n"


def interfaces(count):
    """The same of interfaces; the last is implemented by a class that has no such method itself."""
    call = "class A { static void m() { T t; interfaceinvoke t.<T: void v()>(); return; } }\n"
    yield call + "interface T { void v() { return; } }\ninterface C0 extends T { }\n"
    for number in range(1, count - 5):
        yield f"interface C{number} extends C{number - 1} {{ }}\n"
    yield f"class B implements C{count - 6} {{ }}\n"


def calls(count):
    """Methods each of which calls the one before it, each in a class of its own."""
    yield "class A { static void m() { staticinvoke <C%d: void n()>(); return; } }\n" % (count - 2)
    yield "class C0 { static void n() { return; } }\n"
    for number in range(1, count - 1):
        yield f"class C{number} {{ static void n() {{ staticinvoke <C{number - 1}: void n()>(); return; }} }}\n"


def names(count):
    """Interfaces each of which extends the eight before it, and a class below them all."""
    yield "class A { static void m() { T t; interfaceinvoke t.<T: void v()>(); return; } }\n"
    yield "interface T { void v() { return; } }\ninterface C0 extends T { }\n"
    for number in range(1, count - 3):
        above = ", ".join(f"C{place}" for place in range(max(0, number - 8), number))
        yield f"interface C{number} extends {above} {{ }}\n"
    yield f"class B implements C{count - 4} {{ }}\n"


def sites(count):
    """Call sites of one signature, over classes that all have its method from one above them."""
    yield "class T { void v() { return; } }\n"
    for number in range(10_000):
        yield f"class C{number} extends T {{ }}\n"
    yield "class A { static void m() { T t;\n" + "virtualinvoke t.<T: void v()>();\n" * count + "return; } }\n"


def app(count):
    """Classes with ten methods each, of fifteen statements, that call methods of other classes; one in ten has a subclass."""
    yield "class A { static void m() { C0 c; virtualinvoke c.<C0: void n0()>(); return; } }\n"
    for number in range(count):
        above = f"C{number - number % 10}" if number % 10 else "java.lang.Object"
        yield f"class C{number} extends {above} {{\n"
        for method in range(10):
            yield f"void n{method}() {{ C{(number * 7 + method) % count} c; int i;\n"
            for place in range(13):
                other = (number * 13 + method * 5 + place) % count
                if place % 4 == 0:
                    yield f"virtualinvoke c.<C{other}: void n{(method + place) % 10}()>();\n"
                else:
                    yield f"i = {place};\n"
            yield "nop; return; }\n"
        yield "}\n"


def switch(count):
    """A value that passes a switch of so many cases, each with a place of its own."""
    yield "class A { static void m() { int v;\nv = staticinvoke <S: int src()>();\ntableswitch(v) {\n"
    for number in range(count):
        yield f"case {number}: goto place{number};\n"
    yield "default: goto end; }\n"
    for number in range(count):
        yield f"place{number}: goto end;\n"
    yield "end: staticinvoke <S: void snk(int)>(v); return; } }\n"


def targets(count):
    """A value that goes through one call into so many methods, and back."""
    yield "interface T { int v(int); }\n"
    yield "class A { static void m() { T t; int v;\nv = staticinvoke <S: int src()>();\n"
    yield "v = interfaceinvoke t.<T: int v(int)>(v); staticinvoke <S: void snk(int)>(v); return; } }\n"
    for number in range(count):
        yield f"class C{number} implements T {{ int v(int) {{ int a; a := @parameter0: int; return a; }} }}\n"


KINDS = {
    "chain": ("graph", chain, 65_535),
    "interfaces": ("graph", interfaces, 65_535),
    "calls": ("graph", calls, 32_768),
    "names": ("graph", names, 65_000),
    "sites": ("graph", sites, 1_000_000),
    "app": ("graph", app, 2_000),
    "switch": ("serial", switch, 10_000),
    "targets": ("serial", targets, 2_000),
}


def measured(program, folder, *words):
    """A run's code, its output's last line, seconds of user time and in all, and the peak of memory in megabytes."""
    words = [str(program), *words]
    out = folder / "out"
    began = time.monotonic()
    child = os.fork()
    if child == 0:
        os.chdir(folder)
        os.dup2(os.open(out, os.O_WRONLY | os.O_CREAT | os.O_TRUNC), 1)
        os.dup2(os.open(out, os.O_WRONLY | os.O_APPEND), 2)
        os.execv(words[0], words)
    _, status, usage = os.wait4(child, 0)
    seconds = time.monotonic() - began
    lines = out.read_text().splitlines()
    return os.waitstatus_to_exitcode(status), lines[-1] if lines else "", usage.ru_utime, seconds, usage.ru_maxrss / 1024


def main():
    program = next(path for path in PROGRAMS if path.exists())
    print("processors", os.cpu_count())
    with tempfile.TemporaryDirectory() as name:
        folder = pathlib.Path(name)
        (folder / "L").write_bytes(LISTS)
        for kind in sys.argv[1:] or KINDS:
            command, make, count = KINDS[kind]
            text = "".join(make(count)).encode()
            (folder / "A.jimple").write_bytes(text)
            code, last, user, seconds, memory = measured(program, folder, command, "--entry", ENTRY, "--lists", "L", "A.jimple")
            print(f"{kind:10} {len(text) / 1e6:6.1f} MB  code {code}  {user:6.2f} s user  {seconds:6.2f} s  {memory:7.0f} MB  {last}")


if __name__ == "__main__":
    main()
