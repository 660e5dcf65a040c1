"""What the tests by pytest share: commands of bash, the tools that a test needs; and `shell.py FOLDER [WORD..]`, which
runs the tests of a folder, with these words for pytest."""
import collections
import concurrent.futures
import os
import pathlib
import re
import shlex
import shutil
import subprocess
import sys
import tempfile
import xml.etree.ElementTree

from checks import TOP, claim, conclude, counts


def bash(line, folder=TOP, **variables):
    """Runs a line of bash, where a pipe fails as a part of it does, and returns what it prints."""
    how = {"cwd": folder, "env": {**os.environ, **variables}, "text": True, "errors": "replace", "check": False}
    command = ["bash", "-euo", "pipefail", "-c", line]
    made = subprocess.run(command, capture_output=True, stdin=subprocess.DEVNULL, **how)
    assert made.returncode == 0, f"{line}\nstatus {made.returncode}\n{made.stdout[-3000:]}{made.stderr[-3000:]}"
    return made.stdout


def hiding(folders):
    """The words that run a command where these folders are empty; none where no mount namespace can be had."""
    each = " && ".join(f"mount -t tmpfs none {shlex.quote(str(it))}" for it in folders)
    for words in (["unshare", "-m"], ["unshare", "-rm"]):
        if subprocess.run([*words, "true"], capture_output=True, check=False).returncode == 0:
            return [*words, "bash", "-c", f'{each} && exec "$@"', "-"]
    return []


def needs(*tools):
    """Skips a test that needs a tool which is not here; `PYTHON:MODULE` is a module of that Python."""
    import pytest
    for tool in tools:
        program, _, module = tool.partition(":")
        if not shutil.which(program):
            pytest.skip(f"no {program}")
        if module and subprocess.run([program, "-c", f"import {module}"], capture_output=True, check=False).returncode:
            pytest.skip(f"no {module}")


def grouped(names):
    """The names, with one name and a number for those that differ in their parameters."""
    times = collections.Counter(re.sub(r"\[.*\]", "", it) for it in names)
    return [name if many == 1 else f"{name} x {many}" for name, many in times.items()]


def verdict(case):
    """Counts a test of a report, and returns why it was skipped, or None."""
    why = case.find("skipped")
    if why is None:
        counts[case.find("failure") is not None or case.find("error") is not None] += 1
    if why is None:
        return None
    # of a file that is skipped as it is read, the reason stands in the text
    of_file = re.search(r"'Skipped: (.*)'\)", why.text or "") if why.get("message") == "collection skipped" else None
    return " ".join((of_file[1] if of_file else why.get("message")).split())


def reported(report):
    """What a report says of its tests: how many ran, which were skipped and why, and, of a test that runs those of a
    language by another program, what it says of them (the properties `ran` and `not run`)."""
    ran, skipped, own = 0, [], []
    for case in xml.etree.ElementTree.parse(report).iter("testcase") if report.is_file() else ():
        why, name = verdict(case), case.get("name") or "all of it"
        ran += why is None
        skipped += [] if why is None else [f"{name}: {why}"]
        notes = (it for it in case.iter("property") if it.get("name") in ("ran", "not run"))
        own += [f"{it.get('name')}: {it.get('value')}" for it in notes]
    return ran, skipped, own


def run_tests(folder, *words, before=()):
    """Runs each file of tests by a pytest of its own, side by side, after the words `before`, and shows what fails.
    Counts the tests that ran of each file, and names those that were skipped, for scripts/ran."""
    if not shutil.which("pytest"):
        claim(False, "pytest is not here, so nothing was run")
        return conclude()
    paths, said_of = sorted(pathlib.Path(folder).resolve().glob("test_*.py")), []
    command = [*before, "pytest", "-q", "--tb=short", "-p", "no:cacheprovider", *words]
    with tempfile.TemporaryDirectory() as room, concurrent.futures.ThreadPoolExecutor(len(paths) or 1) as pool:
        def of_file(path):
            words = [*command, f"--junitxml={room}/{path.stem}.xml", path]
            return subprocess.run(words, cwd=path.parent, capture_output=True, text=True, check=False)

        for path, said in zip(paths, pool.map(of_file, paths)):
            # 5: no test of the file was chosen
            if said.returncode not in (0, 5):
                print(said.stdout[-20000:] + said.stderr[-3000:], flush=True)
            counts[1] += said.returncode not in (0, 1, 5)
            ran, skipped, own = reported(pathlib.Path(room, f"{path.stem}.xml"))
            said_of += [f"ran: {path.name} {ran}"] + [f"not run: {path.name} {it}" for it in grouped(skipped)] + own
    print(*said_of, sep="\n")
    counts[1] += all(it.endswith(" 0") for it in said_of if it.startswith("ran: "))
    return conclude()


if __name__ == "__main__":
    sys.exit(run_tests(*sys.argv[1:]))
