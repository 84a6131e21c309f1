#!/usr/bin/env python3
"""Writes a synthetic tree: `synthetic_modules.py DIRECTORY [MODULES [SEED]]`, 1,000 modules and seed 5 where none are given.

Blocks of 64 modules stand in a file each: 63 static libraries that depend on one or two before them in their block, and a
binary over them, of which every fourth is built with the address sanitizer. It is no part of the gate.
"""
import os
import sys


def module_text(seed, number):
    """The text of a module."""
    block, place = divmod(number, 64)
    names = []
    if place:
        names.append(64 * block + (seed + 7 * number) % place)
    if place >= 2:
        names.append(64 * block + (3 * seed + 11 * number) % place)
    libraries = ", ".join(f'"m{it}"' for it in names)
    kind = "cc_binary" if place == 63 else "cc_library_static"
    lines = [f"{kind} {{", f'    name: "m{number}",', f'    srcs: ["m{number}.c"],', f"    static_libs: [{libraries}],"]
    if place == 63 and (seed + block) % 4 == 0:
        lines.append("    sanitize: { address: true },")
    return "\n".join([*lines, "}", ""])


def main():
    top = sys.argv[1]
    modules = int(sys.argv[2]) if len(sys.argv) > 2 else 1000
    seed = int(sys.argv[3]) if len(sys.argv) > 3 else 5
    paths = []
    for begin in range(0, modules, 64):
        folder = f"b{begin // 64}"
        os.makedirs(f"{top}/{folder}", exist_ok=True)
        with open(f"{top}/{folder}/Android.bp", "w", encoding="ascii") as file:
            file.writelines(module_text(seed, it) for it in range(begin, min(begin + 64, modules)))
        paths.append(f"{folder}/Android.bp\n")
    with open(f"{top}/list", "w", encoding="ascii") as file:
        file.writelines(paths)


if __name__ == "__main__":
    main()
