"""Perfect hashes of keys: Python and JavaScript write the same bytes, and each finds in the files of the other the numbers
that the other found, of text, bytes and whole numbers of any size, and the same of values that are no keys."""
import json
import os
import random
import subprocess

import pytest
from checks import TOP
from common import PYTHON
from shell import needs

PYTHON_PROGRAM = """
import json, pathlib, sys, bitm
given, folders = json.loads(pathlib.Path(sys.argv[1]).read_text()), sys.argv[2:]
of = {"text": str, "bytes": bytes.fromhex, "whole": int}
keys, strangers = ([of[kind](value) for kind, value in given[name]] for name in ("keys", "strangers"))
made = dict(plain=bitm.PerfectHash(keys), seeded=bitm.PerfectHash(keys, tries=9, bits=32, seed=2**64 - 1),
            bare=bitm.PerfectHash(keys, bits=0, percent=200, seed=2**60), wide=bitm.PerfectHash(keys, bits=64, seed=7))
found = {name: value.get_list(keys + strangers) for name, value in made.items()}
for name, value in made.items():
    value.save(name)
pathlib.Path("numbers").write_text(json.dumps(found))
for folder in folders:
    for name, numbers in json.loads(pathlib.Path(folder + "numbers").read_text()).items():
        value = bitm.load(folder + name)
        assert type(value) is bitm.PerfectHash and value.check() and value.get_list(keys + strangers) == numbers, folder + name
        assert [value.get(it) for it in keys + strangers] == numbers, folder + name
"""
JAVASCRIPT = """
import { deepStrictEqual } from "node:assert";
import { readFileSync, writeFileSync } from "node:fs";
const [at, file, ...folders] = process.argv.slice(2), { PerfectHash } = await import(at), given = JSON.parse(readFileSync(file, "utf8"));
const of = { text: it => it, bytes: it => Uint8Array.from(Buffer.from(it, "hex")), whole: BigInt };
const [keys, strangers] = ["keys", "strangers"].map(name => given[name].map(([kind, value]) => of[kind](value)));
const made = {
    plain: new PerfectHash(keys), seeded: new PerfectHash(keys, { tries: 9, fingerprintBits: 32, seed: 2n ** 64n - 1n }),
    bare: new PerfectHash(keys, { fingerprintBits: 0, percent: 200, seed: 2n ** 60n }),
};
const asked = [...keys, ...strangers], plain = list => list.map(it => it ?? null), found = {};
const asNumbers = asked.map(it => (typeof it === "bigint" && Number.isSafeInteger(Number(it)) ? Number(it) : it));
for (const [name, value] of Object.entries(made)) {
    writeFileSync(name, value.toBytes());
    found[name] = plain(value.getList(asked));
}
writeFileSync("numbers", JSON.stringify(found));
for (const folder of folders) for (const [name, numbers] of Object.entries(JSON.parse(readFileSync(folder + "numbers", "utf8")))) {
    const value = PerfectHash.open(readFileSync(folder + name));
    for (const list of [asked, asNumbers]) deepStrictEqual([value.check(), plain(value.getList(list))], [true, numbers], folder + name);
    deepStrictEqual(plain(asNumbers.map(it => value.get(it))), numbers, folder + name);
}
"""
TEXTS = ["", "ada", "a" * 7, "a" * 8, "a" * 24, "a" * 25, "ü", "\u65e5\u672c", "\U0001f600", "\ud800", "a\udc00b", "0", "\0", "x" * 70000]
WHOLE = [0, 1, -1, 255, -256, 2**53, 2**53 + 1, 2**63 - 1, -(2**63), 2**63, 2**64 - 1, -(2**63) - 1, 2**71, 2**200, -(2**200), 10**100]


def keys_of(draw):
    """Keys of each kind, as JSON has them; none stands in the other list."""
    texts = [*TEXTS, *(f"key {draw} {at}" for at in range(300))]
    drawn = random.Random(draw)
    data = ["", "00", *(f"{at:04x}" + drawn.randbytes(at % 40).hex() for at in range(300))]
    whole = {*WHOLE, *(drawn.randrange(-(2**70), 2**70) for _ in range(300))}
    return [["text", it] for it in texts] + [["bytes", it] for it in data] + [["whole", str(it)] for it in sorted(whole)]


@pytest.fixture(scope="module")
def files(site, tmp_path_factory):
    """The folder of each language, in which each has read the files of the other."""
    needs("node", f"{PYTHON}:setuptools")
    folders = {name: tmp_path_factory.mktemp(name) for name in ("python", "javascript")}
    strangers = [it for it in keys_of(2) if it not in keys_of(1)]
    given = folders["python"] / "keys.json"
    given.write_text(json.dumps({"keys": keys_of(1), "strangers": strangers}))
    module = TOP / "bindings/javascript/src/node.js"
    commands = {"python": [PYTHON, "-c", PYTHON_PROGRAM], "javascript": ["node", "--input-type=module", "-e", JAVASCRIPT, "-", module]}
    for name, read in (("python", []), ("javascript", ["python"]), ("python", ["javascript"])):
        how = {"cwd": folders[name], "env": {**os.environ, **site}, "text": True, "capture_output": True}
        made = subprocess.run([*commands[name], given, *(f"{folders[it]}/" for it in read)], check=False, **how)
        assert made.returncode == 0, made.stdout + made.stderr
    return folders


def test_each_finds_the_numbers_that_the_other_found(files):
    numbers = {name: json.loads((it / "numbers").read_text()) for name, it in files.items()}
    count = len(keys_of(1))
    for name, found in numbers["python"].items():
        assert sorted(found[:count]) == list(range(count))
        assert sum(it is not None for it in found[count:]) < 9 or name == "bare"


@pytest.mark.parametrize("name", ["plain", "seeded", "bare"])
def test_same_bytes(name, files):
    assert (files["python"] / name).read_bytes() == (files["javascript"] / name).read_bytes()
