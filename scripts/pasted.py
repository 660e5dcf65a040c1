"""What README.md has a reader paste in each language: the command that installs, the program, the one that runs it."""
import re

PACKAGE = '[package]\nname = "x"\nversion = "0.1.0"\nedition = "2021"\n[dependencies]\n'


class Pasted:
    """The README of a checkout in home/vokhuliza, pasted in home/work. `run(command, folder)` runs a command of bash
    there, whose HOME is home, and returns what it prints."""

    def __init__(self, home, run):
        self.home, self.run = home, run
        self.checkout, self.work = home / "vokhuliza", home / "work"
        (self.work / "src").mkdir(parents=True, exist_ok=True)
        self.text = (self.checkout / "README.md").read_text(encoding="utf-8")
        self.wanted = self.block("output")

    def line(self, begin):
        """The command, or the line of a file, in backquotes that begins so."""
        return re.search(f"`({re.escape(begin)}[^`]*)`", self.text)[1]

    def block(self, language):
        found = re.search(rf"^```{language}\n(.*?)^```", self.text, re.M | re.S)
        return found and found[1]

    def prints(self, language, file, command):
        """Writes the program of a language, and compares what the command prints with what the README says."""
        (self.work / file).write_text(self.block(language), encoding="utf-8")
        assert self.run(command, self.work) == self.wanted

    def c(self):
        self.run(self.line("make install"), self.checkout)
        self.prints("c", "x.c", f"{self.line('cc x.c')} && ./a.out")

    def cpp(self):
        self.run(self.line("make install"), self.checkout)
        self.prints("cpp", "x.cpp", f"{self.line('cc x.c').replace('cc x.c', 'c++ x.cpp')} && ./a.out")

    def rust(self):
        (self.work / "Cargo.toml").write_text(f"{PACKAGE}{self.line('bitm = {')}\n", encoding="utf-8")
        self.prints("rust", "src/main.rs", "cargo run --quiet --offline")

    def python(self):
        """In an environment that has the system's setuptools and wheel, which pip would load."""
        self.run("python3 -m venv --system-site-packages venv", self.home)
        offline = "export PIP_NO_INDEX=1 PIP_NO_BUILD_ISOLATION=0 PIP_DISABLE_PIP_VERSION_CHECK=1"
        activate = f"source {self.home}/venv/bin/activate"
        self.run(f"{activate} && {offline} && {self.line('pip install')}", self.checkout)
        self.prints("python", "x.py", f"{activate} && python3 x.py")

    def javascript(self):
        """The program is a block, or a line that prints what the README says after it."""
        install = self.line("npm install").replace("PATH", str(self.checkout), 1)
        self.run(f"{install} --offline --no-audit --no-fund", self.work)
        if self.block("javascript"):
            self.prints("javascript", "x.mjs", "node x.mjs")
        else:
            run, said = re.search(r"`(node -e '[^`]*')` prints ([\d ]+)", self.text).groups()
            assert self.run(run, self.work).strip() == said
