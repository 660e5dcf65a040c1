"""Tests of the artefacts of a release, which scripts/dist-check runs where the repository and Rattle are hidden.
`DIST=FOLDER pytest packaging/tests -k NAME` runs some of them, over the artefacts in the folder; with QUICK=1 those that
take long are skipped, and so is a test whose tools or artefacts are not here."""
import pathlib
import sys

sys.path.insert(0, str(pathlib.Path(__file__).resolve().parents[2] / "scripts"))
