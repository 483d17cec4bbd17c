#!/usr/bin/env python3
"""Translates a module of LLVM, as tools/to-c/passes writes it, to portable C.

    python3 tools/to-c [--header HEADER] MODULE.ll OUT.c

The calls of HEADER are what the C exports; without it the C is a program: tmchan_main is the module's main, and
platform/ has C's. The C needs the headers of tools/to-c/include beside it, which say what it asks of a compiler. It
holds one function for each of the module, from which nothing is left out: what the translator does not know stops it,
with the line, status 1 and no file.
"""
import argparse
import os
import sys

sys.dont_write_bytecode = True

import instructions  # noqa: E402, F401 (fills in what is known)
from constants import Constants  # noqa: E402
from exports import Header, exported, main_lines  # noqa: E402
from functions import Function, head_text  # noqa: E402
from llvm_module import Module  # noqa: E402
from llvm_types import Unknown, c_type  # noqa: E402


def struct_text(kind):
    fields = " ".join(f"{c_type(field)} f{number};" for number, field in enumerate(kind.fields))
    return f"typedef struct {{ {fields} }} {c_type(kind)};"


def translated(text, header_path):
    """The C of a module's text."""
    module = Module(text)
    definitions = [line for it in module.definitions for line in Function(module, it).write()]
    constants = Constants(module)
    heads = [f"{head_text(it)};" for it in module.heads.values()]
    if header_path:
        header = Header(header_path)
        begin, end = f'#include "{os.path.basename(header_path)}"', exported(module, header)
    else:
        begin, end = '#include "portable_program.h"', main_lines(module)
    structs = [struct_text(kind) for name, kind in module.structs.items() if name != "struct_i64_i64"]
    includes = ['#include "portable.h"', '#include "portable_heap.h"', begin, '#include "portable_atomic.h"']
    return "\n".join(
        [
            *includes,
            "",
            *structs,
            "",
            *constants.declarations,
            "",
            *heads,
            "",
            *constants.definitions,
            "",
            *constants.turned(),
            "",
            *definitions,
            *end,
        ]
    )


def main():
    arguments = argparse.ArgumentParser(
        prog="to-c", description=__doc__, formatter_class=argparse.RawDescriptionHelpFormatter
    )
    arguments.add_argument("--header", help="C header whose calls are exported")
    arguments.add_argument("module")
    arguments.add_argument("out")
    given = arguments.parse_args()
    try:
        with open(given.module, encoding="utf-8", errors="surrogateescape") as file:
            text = translated(file.read(), given.header)
    except (Unknown, OSError) as what:
        sys.exit(f"to-c: {given.module}: {what}")
    with open(f"{given.out}.new", "w", encoding="utf-8") as file:
        file.write(text)
    os.replace(f"{given.out}.new", given.out)


main()
