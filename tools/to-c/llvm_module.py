"""A module as it is read: its constants and variables, its functions, and what each of them is called in C."""
import re
from dataclasses import dataclass

from llvm_text import NAME, Line
from llvm_types import Unknown

# What the headers give of C, by the names that the module calls.
OUTSIDE = frozenset(
    """
    rattle_alloc rattle_realloc rattle_dealloc malloc free
    rattle_arg rattle_errno rattle_set_errno read write __write _exit abort __sysv_signal __x86_get_cpuid_feature_leaf
    pthread_attr_init pthread_attr_destroy pthread_attr_setguardsize pthread_create pthread_join pthread_detach
    pthread_self""".split()
)


@dataclass
class Variable:
    c_name: str
    is_constant: bool
    kind: object
    value: object


@dataclass
class Head:
    """A function without its body. Of parameters without a name the name is None."""

    name: str
    c_name: str
    result: object
    parameters: list  # pairs of type and name


@dataclass
class Definition:
    head: Head
    lines: list


class Module:
    def __init__(self, text):
        self.variables, self.definitions, self.structs = {}, [], {}
        self.taken = set()
        lines = iter(enumerate(text.split("\n"), 1))
        for number, line in lines:
            try:
                if line.startswith("@"):
                    self.read_variable(line)
                elif line.startswith("define "):
                    self.read_function(line, lines)
                elif line and not line.startswith(
                    (";", "!", "}", "declare ", "attributes ", "target ", "source_filename ")
                ):
                    raise Unknown("such a line")
            except Unknown as what:
                raise Unknown(f"line {number}: {line[:200]}\n  {what}") from what
        self.heads = {it.head.name: it.head for it in self.definitions}

    def read_variable(self, text):
        found = re.match(rf"@({NAME}) = (?:private|internal) (?:unnamed_addr )?(global|constant) ", text)
        if not found:
            raise Unknown("such a variable")
        line = Line(text[found.end() :])
        kind = line.type()
        self.variables[found[1]] = Variable(f"g{len(self.variables)}", found[2] == "constant", kind, line.value(kind))
        line.end()

    def read_function(self, text, lines):
        line = Line(text[len("define ") :])
        line.attributes()
        result = line.type()
        name = line.need_match(rf"@({NAME})")[1]
        line.need("(")
        parameters = line.several(")", lambda: self.parameter(line))
        body = []
        for _, it in lines:
            if it == "}":
                break
            body.append(it)
        self.definitions.append(Definition(Head(name, self.c_name(name), result, parameters), body))

    @staticmethod
    def parameter(line):
        kind = line.type()
        line.attributes()
        return kind, line.local()

    def c_name(self, name):
        """A name of its own, which begins as the module's does."""
        start = re.sub(r"[^A-Za-z0-9]+", "_", "f_" + name.strip('"'))[:60].rstrip("_")
        c_name, number = start, 1
        while c_name in self.taken:
            number += 1
            c_name = f"{start}_{number}"
        self.taken.add(c_name)
        return c_name

    def function(self, name):
        """The C name of a function of the module, or of one that the headers give."""
        if name in self.heads:
            return self.heads[name].c_name
        if name not in OUTSIDE:
            raise Unknown(f"a call of {name}, which is not there")
        return f"outside_{name}"
