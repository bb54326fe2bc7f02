#!/usr/bin/env python3
"""How long the built program takes for texts that are nested so deep.

    bench/nesting.py [--depths N,N..] [--runs N] [--notation PROGRAM]

It wants the program that ./convert builds. For each kind it prints the least user time of the runs in milliseconds, by depth; refused texts count too.
First come the kinds that are tried as something else at each level, then each production in itself. With --notation it asks a program that
writes raw trees, as tree_notation does, in place of that one, so that reading alone is measured.
"""

import argparse
import os
import pathlib
import subprocess

TOP = pathlib.Path(__file__).resolve().parent.parent
PROGRAM = TOP / "crates" / "ts_to_js_cli" / "out" / "ts_to_js_cli"
LEVELS = 512

# what is tried as something else: what stands before all, each level's front, what is inside all, each level's back
KINDS = {
    "(a = (..": ("", "(a = ", "1", ")"),
    "(a, b = (..": ("", "(a, b = ", "1", ")"),
    "({ a = (..": ("", "({ a = ", "1", "})"),
    "([a = (..": ("", "([a = ", "1", "])"),
    "async (a = (..": ("", "async (a = ", "1", ")"),
    "a ? (b = (..": ("", "a ? (b = ", "1", ") : 0"),
    "a ? (b) : c => (..": ("", "a ? (b) : c => (", "1", ")"),
    "a ? (b) : {[..]: 0}": ("", "a ? (b) : {[", "1", "]: 0}"),
    "(a = `${..": ("", "(a = `${", "1", "}`)"),
    "<T>(a = ..": ("x = ", "<T>(a = ", "1", ")"),
    "(a = b => (..": ("", "(a = b => (", "1", "))"),
    "{[{[..]: 0}]: 0}": ("x = ", "{[", "1", "]: 0}"),
    "{ get, [..]: 0 }": ("x = ", "{ get, [", "1", "]: 0 }"),
    "class { get, [..] }": ("x = ", "class { get\n[", "1", "] = 0 }"),
    "class { [..] = 0 }": ("x = ", "class { [", "1", "] = 0 }"),
    "as { get, [..] }": ("x = ", "a as { get\n[", "1", "]: b }"),
    "as { set, [..] }": ("x = ", "a as { set\n[", "1", "]: b }"),
    "new a<{[..]: b}> c": ("x = ", "new a<{[", "1", "]: b}> 0"),
    "a<{[..]: b}> c": ("x = ", "a<{[", "1", "]: b}> 0"),
    "class extends B<{[..": ("x = ", "class extends B<{[", "1", "]: b}> {}"),
    "infer U extends (..) ?": ("type A = ", "a extends (infer U extends (", "b", ") ? c : d) ? e : f"),
    "{[a in .., unclosed": ("x = ", "{[a in ", "1", ""),
    "new a(.., unclosed": ("x = ", "new a(", "1", ""),
    "new a<{[.., unclosed": ("x = ", "new a<{[", "1", ""),
    "a<{[.., unclosed": ("x = ", "a<{[", "1", ""),
    "a as A<{[.., unclosed": ("x = ", "a as A<{[", "1", ""),
    "a as A & {[.., unclosed": ("x = ", "a as A & {[", "1", ""),
    "a as A | {[.., unclosed": ("x = ", "a as A | {[", "1", ""),
    "infer U extends (.., unclosed": ("type A = ", "a extends infer U extends (", "c", ""),
    "{ new (a: .., unclosed": ("let x: ", "{ new (a: ", "b", ""),
}

# each production in itself
PRODUCTIONS = {
    "(..)": ("", "(", "1", ")"),
    "f(..)": ("", "f(", "1", ")"),
    "f(...[..])": ("", "f(...[", "1", "])"),
    "new a(..)": ("x = ", "new a(", "1", ")"),
    "import(..)": ("x = ", "import(", "1", ")"),
    "a?.(..)": ("x = ", "a?.(", "1", ")"),
    "a?.<{[..]: b}>()": ("x = ", "a?.<{[", "1", "]: b}>()"),
    "a[..]": ("x = ", "a[", "1", "]"),
    "a?.[..]": ("x = ", "a?.[", "1", "]"),
    "a`${..}`": ("x = ", "a`${", "1", "}`"),
    "`${..}`": ("x = ", "`${", "1", "}`"),
    "[..]": ("x = ", "[", "1", "]"),
    "[a = ..] = 0": ("", "[a = ", "1", "] = 0"),
    "{ a: .. }": ("x = ", "{ a: ", "1", " }"),
    "{ ...(..) }": ("x = ", "{ ...(", "1", ") }"),
    "{ get [..]() {} }": ("x = ", "{ get [", "1", "]() {} }"),
    "{ async [..]() {} }": ("x = ", "{ async [", "1", "]() {} }"),
    "{ a(b = ..) {} }": ("x = ", "{ a(b = ", "1", ") {} }"),
    "-(..)": ("x = ", "-(", "1", ")"),
    "a ** (..)": ("x = ", "a ** (", "1", ")"),
    "a && (..)": ("x = ", "a && (", "1", ")"),
    "a ?? (..)": ("x = ", "a ?? (", "1", ")"),
    "a ? .. : c": ("", "a ? ", "1", " : c"),
    "a ? b : ..": ("", "a ? b : ", "1", ""),
    "a ? (b): {[..]: c} => d : e": ("", "a ? (b): {[", "1", "]: c} => d : e"),
    "a => ..": ("x = ", "a => ", "1", ""),
    "(a = ..) => b": ("x = ", "(a = ", "1", ") => b"),
    "a => { .. }": ("", "a => { ", "1", " }"),
    "function (a = ..) {}": ("x = ", "function (a = ", "1", ") {}"),
    "function () { .. }": ("", "x = function () { ", "1", " }"),
    "class { a(b = ..) {} }": ("x = ", "class { a(b = ", "1", ") {} }"),
    "class { static { .. } }": ("", "x = class { static { ", "1", " } }"),
    "<{[..]: b}>0": ("x = ", "<{[", "1", "]: b}>0"),
    "{ .. }": ("", "{ ", "1", " }"),
    "if (a) .. else b": ("", "if (a) ", "c;", " else b;"),
    "for (a = function () {..};;);": ("", "for (a = function () { ", "", " };;);"),
    "for (let a = () => {..};;);": ("", "for (let a = () => { ", "", " };;);"),
    "for (a in ..);": ("", "for (a in (function () { ", "", " }));"),
    "while (a) ..": ("", "while (a) ", "b;", ""),
    "do .. while (a)": ("", "do ", "b;", " while (a);"),
    "switch (a) { case b: .. }": ("", "switch (a) { case b: ", "", " }"),
    "try { .. } finally {}": ("", "try { ", "", " } finally {}"),
    "a: ..": ("", "a: ", "b", ""),
    "let a = () => { .. }": ("", "let a = () => { ", "", " }"),
    "let { [..]: a } = 0": ("", "let { [(() => { ", "", " })()]: a } = 0;"),
    "namespace A { .. }": ("", "namespace A { ", "", " }"),
    "type (..)": ("type A = ", "(", "b", ")"),
    "type (a: ..) => c": ("type A = ", "(a: ", "b", ") => c"),
    "type abstract new (a: ..) => c": ("type A = ", "abstract new (a: ", "b", ") => c"),
    "type [..]": ("type A = ", "[", "b", "]"),
    "type [a?: ..]": ("type A = ", "[a?: ", "b", "]"),
    "type { a: .. }": ("type A = ", "{ a: ", "b", " }"),
    "type { a(b: ..): c }": ("type A = ", "{ a(b: ", "b", "): c }"),
    "type { get a(): .. }": ("type A = ", "{ get a(): ", "b", " }"),
    "type { (a: ..) }": ("type A = ", "{ (a: ", "b", ") }"),
    "type { a<T extends ..>(): c }": ("type A = ", "{ a<T extends ", "b", ">(): c }"),
    "type { [a: ..]: c }": ("type A = ", "{ [a: ", "b", "]: c }"),
    "type { [a in ..]: c }": ("type A = ", "{ [a in ", "b", "]: c }"),
    "type { [a in b]: .. }": ("type A = ", "{ [a in b]: ", "c", " }"),
    "type A<..>": ("type A = ", "A<", "b", ">"),
    "type typeof a<..>": ("type A = ", "typeof a<", "b", ">"),
    "type A[..]": ("type A = ", "A[", "b", "]"),
    "type keyof ..": ("type A = ", "keyof ", "b", ""),
    "type `${..}`": ("type A = ", "`${", "b", "}`"),
    "type a extends b ? .. : d": ("type A = ", "a extends b ? ", "c", " : d"),
    "type a extends (..) ? c : d": ("type A = ", "a extends (", "b", ") ? c : d"),
}

# ... with no end
UNCLOSED = {f"{kind}, unclosed": (start, front, inside, "") for kind, (start, front, inside, back) in PRODUCTIONS.items() if back.strip()}


def text_of(kind, depth):
    start, front, inside, back = {**KINDS, **PRODUCTIONS, **UNCLOSED}[kind]
    return start + front * depth + inside + back * depth


def user_time(text, options):
    """The least user time of the runs, in milliseconds."""
    program, text = (options.notation, f"typescript {LEVELS}\n{text}") if options.notation else (PROGRAM, text)
    times = []
    for _ in range(options.runs):
        before = os.times().children_user
        subprocess.run([program], input=text.encode(), stdout=subprocess.DEVNULL, stderr=subprocess.DEVNULL, check=False)
        times.append((os.times().children_user - before) * 1000)
    return min(times)


def main():
    parser = argparse.ArgumentParser(description=__doc__, formatter_class=argparse.RawDescriptionHelpFormatter)
    parser.add_argument("--depths", default="10,20,40,160")
    parser.add_argument("--runs", type=int, default=3)
    parser.add_argument("--notation")
    options = parser.parse_args()
    depths = [int(depth) for depth in options.depths.split(",")]
    for kinds in (KINDS, PRODUCTIONS, UNCLOSED):
        print("| text | " + " | ".join(str(depth) for depth in depths) + " |")
        print("|---|" + "---|" * len(depths))
        for kind in kinds:
            row = [f"{user_time(text_of(kind, depth), options):.0f}" for depth in depths]
            print(f"| `{kind}` | " + " | ".join(row) + " |", flush=True)
        print()


if __name__ == "__main__":
    main()
