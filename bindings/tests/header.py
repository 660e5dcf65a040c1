"""include/bitm.h as clang reads it: the calls of the library, structs, statuses and constants."""
import collections
import functools
import json
import re
import shutil

import pytest
from checks import TOP
from shell import bash

if not shutil.which("clang"):
    pytest.skip("no clang", allow_module_level=True)
PLAIN = {"bitm_version", "bitm_bits_to_store", "bitm_optimal_log2"}  # numbers of 32 bits that are no status
Call = collections.namedtuple("Call", "name result given")


class Variable(collections.namedtuple("Variable", "name type")):
    """A parameter or a field."""
    is_const = property(lambda self: self.type.startswith("const "))
    is_pointer = property(lambda self: self.type.endswith("*"))
    kind = property(lambda self: re.fullmatch(r"(?:const )?(?:struct )?(\w+)(?: \*|\[\d+\])?", self.type)[1])
    size = property(lambda self: "".join(re.findall(r"\[\d+\]$", self.type)))


class Header:
    def __init__(self, path):
        declared = json.loads(bash(f"clang -x c -fsyntax-only -Xclang -ast-dump=json {path}"))["inner"]

        def inside(it, kind):
            return [each for each in it.get("inner", ()) if each["kind"] == kind]

        def variables(it, kind):
            return [Variable(each["name"], each["type"]["qualType"].replace("_Bool", "bool")) for each in inside(it, kind)]
        calls = [it for it in declared if it["kind"] == "FunctionDecl" and it.get("storageClass") != "static"]
        self.calls = {it["name"]: Call(it["name"], it["type"]["qualType"].split(" (")[0], variables(it, "ParmVarDecl")) for it in calls}
        self.must_use = {it["name"] for it in calls if inside(it, "WarnUnusedResultAttr")}
        self.structs = {it["name"]: variables(it, "FieldDecl") for it in declared if it["kind"] == "RecordDecl" and "name" in it}
        listed = [it for enum in declared for it in inside(enum, "EnumConstantDecl")]
        self.statuses = {it["name"]: it["inner"][0]["value"] for it in listed}
        self.constants = dict(re.findall(r"^#define (BITM_(?!VERSION)\w+) (\d+|\(?UINT64_MAX.*)$", bash(f"clang -x c -dM -E {path}"), re.M))


@functools.lru_cache(None)
def header(path=TOP / "include/bitm.h"):
    return Header(path)
