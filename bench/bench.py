#!/usr/bin/env python3
"""Compares the built program with esbuild on made modules: user time, memory, and how time grows.

    bench/bench.py [--megabytes N] [--runs N] [--keep FOLDER]

It wants the program that ./convert builds. Where esbuild is installed (Debian: apt-get install esbuild) it runs
on the same files with --loader=ts. For each file it prints the least user time of the runs, the most memory,
and the ratios; and for the program, the time for the whole file over that for a quarter of it.
A module that the program refuses is said to be refused, and not measured.
"""

import argparse
import os
import pathlib
import shutil
import subprocess
import tempfile

TOP = pathlib.Path(__file__).resolve().parent.parent
PROGRAM = TOP / "crates" / "ts_to_js_cli" / "out" / "ts_to_js_cli"


def declaration(number):
    """Declarations with types, members and calls."""
    return (
        f"type Row{number} = records.Row;\n"
        f"const total{number}: records.Total = source.rows.first(\"row {number}\", {number}, true)"
        f".value as records.Total;\n"
        f"log.info(total{number}, 'at', {number}.5e1, null,);\n"
    )


def real_shape(number):
    """Statements as programs have them: comments, deep members, calls, arrows, objects, conditions, types."""
    return (
        f"/**\n * Reads the row of a request, and hands it on.\n * @param request what was asked for\n */\n"
        f"const handle{number} = (request: server.Request, reply: server.Reply) =>\n"
        f"  reply.headers.content.set({{ kind: \"row\", index: {number}, cached: request.query.cached ?? false }});\n"
        f"// The last of them wins.\n"
        f"const last{number}: Array<{{ id: number; name?: string }}> = store.tables.rows\n"
        f"  .filter((row) => row.id > {number} && row.name !== undefined)\n"
        f"  .map((row) => ({{ ...row, name: `${{row.name}}:${{row.id}}` }}));\n"
        f"log.debug(last{number}.length === 0 ? \"none\" : last{number}[0]!.name, [{number}, -1, +2]);\n"
    )


def scopes(number):
    """Scopes inside scopes and beside each other, names that hide others, and one that needs another text once types are gone."""
    return (
        f"function visit{number}(list: Item[], next: (item: Item) => void) {{\n"
        f"  const seen = new Set<string>(); let count = 0;\n"
        f"  for (const item of list) {{ const name = item.name; if (seen.has(name)) continue; seen.add(name); count++;\n"
        f"    {{ let list = item.children; const next = (child: Item) => {{ const seen = child.name; log(seen, name, list, count); }};\n"
        f"      list.forEach((item) => next(item)); }} }}\n"
        f"  try {{ next(list[count]!); }} catch (count) {{ log(count, seen); }}\n"
        f"  return function total(rest: number): number {{ return rest > 0 ? total(rest - count) : rest; }};\n"
        f"}}\n"
        f"{{ declare const outer{number}_: any; outer{number}_(visit{number}); }}\nlet outer{number}_ = 1;\n"
    )


def module(piece, size):
    """Pieces, numbered from 0, until the module has that size."""
    pieces, length = [], 0
    while length < size:
        pieces.append(piece(len(pieces)))
        length += len(pieces[-1])
    return "".join(pieces)


PIECES = {"declarations": declaration, "real shape": real_shape, "scopes": scopes}


def run(words, source):
    """Status, user seconds and megabytes of one run."""
    with open(source, "rb") as stdin, open(os.devnull, "wb") as out:
        child = subprocess.Popen(words, stdin=stdin, stdout=out, stderr=subprocess.PIPE)
        child.stderr.read()
        _, status, usage = os.wait4(child.pid, 0)
        child.returncode = os.waitstatus_to_exitcode(status)
    return child.returncode, usage.ru_utime, usage.ru_maxrss / 1024


def best(words, source, runs):
    """The least user time and the most memory of some runs, or nothing where one refuses."""
    results = [run(words, source) for _ in range(runs)]
    if any(status != 0 for status, _, _ in results):
        return None
    return min(time for _, time, _ in results), max(memory for _, _, memory in results)


def compare(name, piece, megabytes, runs, folder):
    size = int(megabytes * 1024 * 1024)
    whole, quarter = folder / f"{name.replace(' ', '_')}.ts", folder / "quarter.ts"
    whole.write_text(module(piece, size))
    quarter.write_text(module(piece, size // 4))
    print(f"{name}: {whole.stat().st_size / 1024 / 1024:.2f} MB")
    ours = best([str(PROGRAM)], whole, runs)
    if ours is None:
        print("  ts_to_js  refused")
    else:
        print(f"  ts_to_js  {ours[0]:.2f} s  {ours[1]:.0f} MB")
        less = best([str(PROGRAM)], quarter, runs)
        if less is not None and less[0] > 0:
            print(f"  four times the size takes {ours[0] / less[0]:.1f} times as long")
    if shutil.which("esbuild"):
        theirs = best(["esbuild", "--loader=ts", "--log-level=error"], whole, runs)
        if theirs is None:
            print("  esbuild   refused")
            return
        print(f"  esbuild   {theirs[0]:.2f} s  {theirs[1]:.0f} MB")
        if ours is not None:
            print(f"  ratio     {ours[0] / theirs[0]:.2f}    {ours[1] / theirs[1]:.2f}")


def main():
    words = argparse.ArgumentParser(description=__doc__, formatter_class=argparse.RawDescriptionHelpFormatter)
    words.add_argument("--megabytes", type=float, default=3.9, help="the size of each module")
    words.add_argument("--runs", type=int, default=3, help="how often each is run")
    words.add_argument("--keep", type=pathlib.Path, help="a folder for the modules")
    given = words.parse_args()
    if not PROGRAM.exists():
        raise SystemExit(f"bench: {PROGRAM} is missing: run ./convert once")
    with tempfile.TemporaryDirectory() as made:
        folder = given.keep or pathlib.Path(made)
        folder.mkdir(parents=True, exist_ok=True)
        for name, piece in PIECES.items():
            compare(name, piece, given.megabytes, given.runs, folder)


if __name__ == "__main__":
    main()
