"""Class texts of the tests' own: bodies and members with what becomes of them, and those that can't be prepared."""

from typing import Dict, Tuple

HEADING = "class A extends java.lang.Object\n{\n"
BODY = HEADING + "    void m()\n    {\n        A r0;\n        int i0;\n        %s\n    }\n}\n"


def body(statement: str) -> bytes:
    """A class with a method in which a statement stands."""
    return (BODY % statement).encode("latin-1")


def member(text: str) -> bytes:
    return (HEADING + text + "\n}\n").encode("latin-1")


# Texts of the profile, each of which stays as it is.
KEPT: Dict[str, bytes] = {
    "nothing": b"",
    "blanks and comments": b" \t\r\n// a-b\n/* c-d **/",
    "a comment without a line end": b"interface A { }//",
    "a difference without blanks": body("i0 = i0-i0; return;"),
    "a difference and a name in quotes": body("i0 = i0-i0; staticinvoke <A: void 'a-b'()>(); return;"),
    "a negative number": body("i0 = -5; i0 = i0 - -5; i0 = 1.0E-5F; i0 = #-Infinity; return;"),
    "a constant's word as a name": member(
        "void m() { A methodhandle; methodhandle: methodhandle = null; goto methodhandle; }"),
    "a dynamic call as text": body('r0 = "dynamicinvoke a-b"; return;'),
    "names in quotes": body("staticinvoke <'class'.'a b'.'': 'int' 'dynamicinvoke'()>(); return;"),
    "further modifiers": member(
        "synthetic bridge void synthetic(); constructor[] varargs; public bridge declared_synchronized int a;"),
    "a modifier's word as a name": b"synthetic public interface bridge extends a, b implements c { }",
    "two classes": b"interface A { } class B extends A implements C, D { }",
    "a switch": body(
        "lookupswitch(i0) { case -1: goto a; default: goto b; }; a: tableswitch(1) { default: goto a; } b: return;"),
    "a label at the end": member("void m() { A e; a: return; b: catch E from a to b with a; }"),
    "each statement": body(
        "r0 := @this: A; i0 := @parameter007: int; r0 := @caughtexception; r0.<A: int f> = i0; <A: int f> = 1;"
        " r0[i0] = class \"A\"; i0 = r0.<A: int f>; i0 = <A: int f>; i0 = r0[1]; r0 = new A; r0 = newarray (int)[i0];"
        " r0 = newmultiarray (A[])[1][i0][][]; i0 = r0 instanceof A[]; i0 = lengthof r0; i0 = neg i0; r0 = (A[]) r0;"
        " i0 = i0 cmpl 1L; i0 = i0 >>> 1; if i0 <= 1 goto a; a: nop; entermonitor r0; exitmonitor null;"
        " virtualinvoke r0.<A: void m(int,A[])>(i0, r0); i0 = specialinvoke r0.<A: void <init>()>(); throw r0;"),
    "a value at a comma of a text": body('staticinvoke <A: void m(a,b)>("x, y", ","); return;'),
}

STAND_IN = "soot.dummy.InvokeDynamic"

# Texts of Soot, with the text that each becomes.
CHANGED: Dict[str, Tuple[bytes, bytes]] = {
    "a class": (b"interface a.package-info { }", b"interface a.'package-info' { }"),
    "supertypes": (
        b"class A extends a.b-c implements d-, e.f-0.g { }",
        b"class A extends a.'b-c' implements 'd-', e.'f-0'.g { }"),
    "a field": (member("public a.b-c d-e;"), member("public a.'b-c' 'd-e';")),
    "a method": (
        member("abstract a-b get--1x0(int, c-d[]) throws e-f;"),
        member("abstract 'a-b' 'get--1x0'(int, 'c-d'[]) throws 'e-f';")),
    "a name with a number in it": (
        body("i0 = <a.b-1$2e: int c-5e-6>; return;"), body("i0 = <a.'b-1$2e': int 'c-5e-6'>; return;")),
    "a name beside one in quotes": (
        body("r0 = new a.'-b'.c-d; return;"), body("r0 = new a.'-b'.'c-d'; return;")),
    "a segment that begins with a sign": (body("r0 = new a.-b.c; return;"), body("r0 = new a.'-b'.c; return;")),
    "a segment that begins with a digit": (body("r0 = new a.0b.c; return;"), body("r0 = new a.'0b'.c; return;")),
    "a keyword beside a sign": (body("r0 = new class.a-b; return;"), body("r0 = new 'class'.'a-b'; return;")),
    "a name beside a difference": (
        body("i0 = i0-i0; i0 = staticinvoke <A: int a-b(int)>(-5); return;"),
        body("i0 = i0-i0; i0 = staticinvoke <A: int 'a-b'(int)>(-5); return;")),
    "a local": (
        member("void m() { int a-b, c; a-b = 1; a-b = a-b - c; c = c-c; return; }"),
        member("void m() { int 'a-b', c; 'a-b' = 1; 'a-b' = 'a-b' - c; c = c-c; return; }")),
    "a switch over a name": (
        member("void m() { int a-b; lookupswitch(a-b) { case -1: goto c; default: goto c; }; c: return; }"),
        member("void m() { int 'a-b'; lookupswitch('a-b') { case -1: goto c; default: goto c; }; c: return; }")),
    "a caught class": (
        member("void m() { a: return; b: catch c.d-e from a to b with a; }"),
        member("void m() { a: return; b: catch c.'d-e' from a to b with a; }")),
    "joined texts": (
        body('r0 = dynamicinvoke "makeConcatWithConstants" <java.lang.String (int,A[])>(i0, "a;{}") <java.lang.invoke.'
             'StringConcatFactory: java.lang.invoke.CallSite makeConcatWithConstants(java.lang.String)>'
             '("\\u0001-\\u0001"); return;'),
        body('r0 = staticinvoke <%s: java.lang.String makeConcatWithConstants(int,A[])>(i0, "a;{}");'
             ' return;' % STAND_IN)),
    "a lambda": (
        body('r0 = dynamicinvoke "run" <java.lang.Runnable (A)>(r0)'
             ' <java.lang.invoke.LambdaMetafactory: java.lang.invoke.CallSite metafactory(java.lang.String)>'
             '(methodtype: void __METHODTYPE__(), methodhandle: "REF_INVOKE_STATIC" <A: void lambda$a-b(int,A)>,'
             ' methodtype: void __METHODTYPE__(int,A)); return;'),
        body('r0 = staticinvoke <%s: java.lang.Runnable run(A)>(r0); return;' % STAND_IN)),
    "a dynamic call without a result": (
        body('dynamicinvoke "a" <void ()>() <B: C b()>(); return;'),
        body('staticinvoke <%s: void a()>(); return;' % STAND_IN)),
    "a dynamic call of a name that wants quotes": (
        body('r0 = dynamicinvoke "a-b" <a.c-d ()>() <B: C b()>(1, class "A", null); return;'),
        body("r0 = staticinvoke <%s: a.'c-d' 'a-b'()>(); return;" % STAND_IN)),
    "a dynamic call without a name": (
        body('dynamicinvoke "" <void ()>() <B: C b()>(); return;'),
        body("staticinvoke <%s: void ''()>(); return;" % STAND_IN)),
    "constants of methods": (
        body('r0 = methodhandle: "REF_GET_FIELD" <A: int a>; r0 = methodtype: int __METHODTYPE__(int,A[]);'
             ' r0 = methodtype: (int)A; r0 = staticinvoke <A: A m(B,C)>(methodhandle: <A: void b()>, 1); return;'),
        body("r0 = null; r0 = null; r0 = null; r0 = staticinvoke <A: A m(B,C)>(null, 1); return;")),
    "a member behind a changed one": (member("a-b c; d e;"), member("'a-b' c; d e;")),
}

# Texts that are left out, with the line, the column and the reason.
LEFT_OUT: Dict[str, Tuple[bytes, int, int, str]] = {
    "no text": (b"\x7fELF\x00\x01\n", 1, 1, "byte not allowed"),
    "a sign of no token": (member("int a;\n  int b~c;"), 4, 8, "byte not allowed"),
    "an open string": (body('r0 = "a'), 7, 14, "text not ended"),
    "an open name": (member("int 'a;"), 3, 5, "text not ended"),
    "an open comment": (b"interface A { }\n/* a *", 2, 1, "text not ended"),
    "no class": (b"a b c\n", 1, 1, "syntax"),
    "an end that lacks": (b"interface A {\n", 2, 1, "syntax"),
    "a body without a statement": (member("void m() { }"), 3, 12, "syntax"),
    "a name with a blank": (member("void a b();"), 3, 1, "syntax"),
    "a modifier's word in place of a type": (member("synthetic a;"), 3, 1, "syntax"),
    "two superclasses": (b"class A extends B, C { }", 1, 1, "syntax"),
    "an argument too few": (body("staticinvoke <A: void m(int)>(); return;"), 7, 9, "syntax"),
    "an argument too many": (body("staticinvoke <A: void m()>(1); return;"), 7, 9, "syntax"),
    "a return to a place": (body("ret r0; return;"), 7, 9, "ret not supported"),
    "a breakpoint": (body("breakpoint; return;"), 7, 9, "breakpoint not supported"),
    "a dynamic call of another form": (
        body('r0 = dynamicinvoke "a" <A ()>(); return;'), 7, 14, "dynamicinvoke not supported"),
    "a dynamic call of a name with a quote": (
        body("dynamicinvoke \"a'b\" <void ()>() <B: C b()>(); return;"), 7, 9, "dynamicinvoke not supported"),
    "a dynamic call with an argument too few": (
        body('nop;\ndynamicinvoke "a" <void (int)>() <B: C b()>(); return;'), 8, 1, "syntax"),
    "a constant of another form": (body("r0 = methodhandle: a; return;"), 7, 14, "methodhandle not supported"),
    "a parameter too high": (body("i0 := @parameter255: int; return;"), 7, 16, "too many names"),
    "too many parameters": (member("void m(%s);" % ", ".join(["int"] * 256)), 3, 6, "too many names"),
    "too many locals": (
        member("void m()\n{\nint a%s;\nreturn; }" % ", a".join(map(str, range(65_536)))), 5, 1, "too many names"),
    "a field given twice": (member("int a;\npublic int 'a';"), 4, 12, "name given twice"),
    "a method given twice": (member("int a(b, c);\nfinal int a(b,c);"), 4, 11, "name given twice"),
    "a local given twice": (member("void m()\n{ int a;\nA b, a; return; }"), 5, 6, "name given twice"),
    "a label given twice": (body("a: nop; a: return;"), 7, 17, "name given twice"),
    "an unknown local": (body("i0 = staticinvoke <A: int m(A)>(r1); return;"), 7, 41, "unknown local"),
    "an unknown local behind a changed name": (body("r0 = new a-b; i0 = r1; return;"), 7, 28, "unknown local"),
    "a difference of names that are none": (
        body("staticinvoke <A: void a-b()>(); i0 = i0-x; return;"), 7, 49, "unknown local"),
    "an unknown label": (body("goto a; return;"), 7, 14, "unknown label"),
    "a jump behind the end": (body("goto a; a:"), 7, 14, "unknown label"),
    "an unknown end": (body("a: return; catch A from a to b with a;"), 7, 38, "unknown label"),
}
