#!/usr/bin/env python3
"""Respells the repository's own definitions and lemmas: words with hyphens become words with underscores.

usage: python3 tools/respell.py          at the top of the repository, once, after the kit's port.py
       python3 tools/respell.py --list   prints old and new names, and writes nothing

A name is ours where a file of specs/ or proofs/ declares it and it is no goal, invariant or measure that the check asks for by that name.
Where the plain respelling would fall together with another name, APART gives the new one.
"""

import glob
import re
import sys

DECLARED = re.compile(r"^ *(?:(?:abbrev|unfoldable|pub) )*([^\s(){}\[\].,;:]+) :(?: |$)")
ASKED = re.compile(r"^ *(?:(?:abbrev|unfoldable|pub) )*([^\s(){}\[\].,;:]+) : goal\.")
GIVEN = re.compile(r"^(loop-.*-(init|preserved|smaller)|returns-.*|(invariant|decreases)-.*|.*-requires(-\d+)?)$")
NAME = re.compile(r"[^\s(){}\[\].,;:@]+")

# What would fall together with a word of the library.
APART = {
    "bit-and": "bit_of_and",
    "bit-or": "bit_of_or",
    "bit-xor": "bit_of_xor",
    "bit-shl": "bit_of_shl",
    "bit-shr": "bit_of_shr",
}


def files():
    for end in ("specs/**/*.antt", "proofs/**/*.antt", "src/**/*.rt"):
        yield from sorted(glob.glob("crates/*/" + end, recursive=True))


# Names that an import gives, a parameter of a module, and a name that port.py garbles (it was `getD-bits`).
GIVEN_HERE = {
    "theStated": "the_stated",
    "stringAt": "string_at",
    "inOrder": "in_order",
    "coversAll": "covers_all",
    "eq-true": "eq_true",
    "get_d_bits": "get_or_bits",
}


def declared():
    names = set()
    for path in files():
        if path.endswith(".antt"):
            for line in open(path, encoding="utf-8"):
                it = DECLARED.match(line)
                if it and "-" in it[1] and not ASKED.match(line) and not GIVEN.match(it[1]):
                    names.add(it[1])
    return {n: APART.get(n, n.replace("-", "_")) for n in sorted(names)} | GIVEN_HERE


def respelled(text, names):
    return NAME.sub(lambda it: names.get(it[0], it[0]), text)


def main():
    names = declared()
    if "--list" in sys.argv:
        for old, new in names.items():
            print(old, new)
        return
    for path in files():
        with open(path, encoding="utf-8") as f:
            old = f.read()
        new = respelled(old, names)
        if new != old:
            with open(path, "w", encoding="utf-8") as f:
                f.write(new)


main()
