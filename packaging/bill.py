#!/usr/bin/env python3
"""bill.py FOLDER VERSION COMMIT DATE TOOLCHAIN NAME=PLACE=FILE..   prints the bill of materials (SPDX 2.3) of the artefacts in
FOLDER: the sources, the toolchain, each archive and the program with its place in a checkout, the modules of JavaScript in
this folder's repository, and each artefact that is made of them."""
import hashlib
import json
import pathlib
import re
import sys

UNKNOWN, LICENCE = "NOASSERTION", "Apache-2.0"
WASM = pathlib.Path(__file__).resolve().parents[1] / "bindings/javascript/wasm"


def sums(path, *kinds):
    return [{"algorithm": kind.upper(), "checksumValue": hashlib.new(kind, path.read_bytes()).hexdigest()} for kind in kinds]


def package(name, file, version, licence, **more):
    return {"SPDXID": name, "name": file, "versionInfo": version, **more, "downloadLocation": UNKNOWN, "filesAnalyzed": False,
            "licenseConcluded": licence, "licenseDeclared": licence, "copyrightText": UNKNOWN}


def inside(artefact, version, archives, modules):
    """The archives, the modules and the program in an artefact."""
    program = [it for it in archives if it.endswith("-program")] if re.search(r"^(?:bitm|vokhuliza)-.*-x86_64-.*-gnu\.tar\.gz$|^bitm_.*\.deb$", artefact) else []
    archives = [it for it in archives if not it.endswith("-program")]
    by_processor = archives if artefact.endswith(".crate") else [it for it in archives if ("aarch64" in it) == (re.search("aarch64|_arm64.deb", artefact) is not None)]
    if "-docs-" in artefact or artefact.endswith(".tgz") or artefact.startswith("bitm_"):
        by_processor = []
    return by_processor + program + (modules if re.search(rf"\.tgz$|^vokhuliza-{version}-.*-gnu\.tar\.gz$", artefact) else [])


def bill(folder, version, commit, date, toolchain, *archives):
    source = f"vokhuliza-{version}.tar.gz"
    files = {f"SPDXRef-Archive-{name}": (place, pathlib.Path(file)) for name, place, file in (it.split("=") for it in archives)}
    modules = {f"SPDXRef-Module-{it.name}": (f"bindings/javascript/wasm/{it.name}", it) for it in sorted(WASM.glob("*.wasm"))}
    relations = [("SPDXRef-DOCUMENT", "DESCRIBES", "SPDXRef-Source"), ("SPDXRef-Toolchain", "BUILD_TOOL_OF", "SPDXRef-Source"),
                 *((name, "GENERATED_FROM", "SPDXRef-Source") for name in files | modules)]
    packages = [package("SPDXRef-Source", "vokhuliza", version, LICENCE, packageFileName=source, checksums=sums(folder / source, "sha256"), sourceInfo=f"commit {commit}"),
                package("SPDXRef-Toolchain", "rattle-kit", toolchain, UNKNOWN,
                        comment="proves and builds the archives; no part of an artefact but the helpers that the compiler adds")]
    for it in sorted(it for it in folder.iterdir() if it.suffix in (".gz", ".tgz", ".deb", ".whl", ".crate") and it.name != source):
        name = "SPDXRef-" + re.sub(r"[^A-Za-z0-9.]", "-", it.name)
        packages.append(package(name, it.name, version, LICENCE, packageFileName=it.name, checksums=sums(it, "sha256")))
        relations += [(name, "GENERATED_FROM", "SPDXRef-Source"), *((name, "CONTAINS", of) for of in inside(it.name, version, list(files), list(modules)))]
    return {"spdxVersion": "SPDX-2.3", "dataLicense": "CC0-1.0", "SPDXID": "SPDXRef-DOCUMENT", "name": f"vokhuliza-{version}",
            "documentNamespace": f"https://vokhuliza.invalid/spdx/vokhuliza-{version}-{commit}",
            "creationInfo": {"created": date, "creators": ["Tool: scripts/dist", "Organization: Vokhuliza maintainers"]},
            "documentDescribes": ["SPDXRef-Source"], "packages": packages,
            "files": [{"SPDXID": name, "fileName": f"./{place}", "fileTypes": ["BINARY"], "checksums": sums(file, "sha1", "sha256"),
                       "licenseConcluded": LICENCE, "copyrightText": UNKNOWN} for name, (place, file) in (files | modules).items()],
            "relationships": [{"spdxElementId": one, "relationshipType": kind, "relatedSpdxElement": other} for one, kind, other in relations]}


if __name__ == "__main__":
    print(json.dumps(bill(pathlib.Path(sys.argv[1]), *sys.argv[2:]), indent=2))
