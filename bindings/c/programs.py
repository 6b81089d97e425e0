#!/usr/bin/env python3
"""Writes each program in C that the header and the documents show to a file of its own: programs.py FOLDER

The files are NUMBER.c, and beside each NUMBER.in, its input, and NUMBER.out, what it has to write. NUMBER.long is an input of some
megabytes, and NUMBER.long_out what it has to write for that. NUMBER.argument is its argument, if it takes one.
"""
import pathlib
import re
import sys

HERE = pathlib.Path(__file__).resolve().parent
URL = "data:text/plain;base64,SGVsbG8h#part"
TYPE = 'Text/HTML; title="a\\"b"; Charset=UTF-8; charset=x'
LONG = 400_000


def shown():
    """Returns the programs as they are written there."""
    comment = HERE.parent.joinpath("rust/include/data_url.h").read_text().split("*/")[0]
    lines = [line[3:] for line in comment.splitlines()]
    indented = "\n".join(line[4:] if line.startswith("    ") else "" if not line else "\f" for line in lines)
    pages = [HERE.parent / "README.md", HERE.parent.parent / "README.md"]
    fenced = [block for page in pages for block in re.findall(r"^```c\n(.*?)^```$", page.read_text(), re.S | re.M)]
    return [it.strip("\n") + "\n" for it in [*indented.split("\f"), *fenced] if "int main(" in it]


def inputs_and_outputs(program):
    """Returns an input for a program and what it has to write, and the same for a long one."""
    if "data_url_base64_feed" in program:
        return "SGVs\r\nbG8h", "Hello!", "SGVs\r\nbG8h" * LONG, "Hello!" * LONG
    if "data_url_body_next" in program:
        return URL, "Hello!", "data:," + "Hello%21" * LONG, "Hello!" * LONG
    if "data_url_type_parts" in program:
        return "", "type: text\nsubtype: html\ncharset: UTF-8\n", "", ""
    return "", "Hello!, 6 bytes\n", "", ""


def main(folder):
    programs = shown()
    assert len(programs) == 5, f"{len(programs)} programs are shown"
    for number, program in enumerate(programs):
        argument = TYPE if "arguments[1]" in program else ""
        texts = (program, *inputs_and_outputs(program), argument)
        for ending, text in zip(("c", "in", "out", "long", "long_out", "argument"), texts):
            pathlib.Path(folder, f"{number}.{ending}").write_bytes(text.encode())


main(sys.argv[1])
