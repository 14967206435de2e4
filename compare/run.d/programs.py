"""The programs that are asked: each reads a rule a line and answers a line."""
import fcntl
import os
import select
import subprocess
import sys
from importlib.machinery import SourceFileLoader
from importlib.util import module_from_spec, spec_from_loader
from pathlib import Path

COMPARE = Path(__file__).resolve().parent.parent
SLOW = "slow"
SECONDS_FOR_A_GROUP = 60
SECONDS_FOR_A_LINE = 20


def program(variable, path, how):
    found = Path(os.environ.get(variable, path))
    if not found.is_file():
        sys.exit(f"no program {found}; make it by {how}, or name it in {variable}")
    return str(found.resolve())


def both_programs():
    """The line program and the oracle."""
    lines = program("LINE_PROGRAM", COMPARE.parent / "crates/lines/out/lines", "./list freq=daily start=0")
    return lines, program("ORACLE", COMPARE / "target/rrule/target/release/oracle", "compare/build")


def load(name):
    """A program of compare/ as a module."""
    sys.dont_write_bytecode = True
    loader = SourceFileLoader(Path(name).name, str(COMPARE / name))
    module = module_from_spec(spec_from_loader(loader.name, loader))
    loader.exec_module(module)
    return module


def ask(program, lines, seconds=SECONDS_FOR_A_GROUP):
    """The answers to some lines. Where they take too long together, each line is asked by itself."""
    if not lines:
        return []
    text = "".join(f"{line}\n" for line in lines)
    try:
        run = subprocess.run([program], input=text, capture_output=True, text=True, timeout=seconds)
    except subprocess.TimeoutExpired:
        if len(lines) == 1:
            return [SLOW]
        return [answer for line in lines for answer in ask(program, [line], SECONDS_FOR_A_LINE)]
    answers = run.stdout.split("\n")[:-1]
    if len(answers) != len(lines):
        raise SystemExit(f"{program}: {len(answers)} answers to {len(lines)} lines; exit {run.returncode}")
    return answers


class Mended:
    """The copy of the Rust in which named places are mended; one process for each choice of places."""

    def __init__(self, oracle):
        self.explain = load("differences.d/explain")
        self.oracle = oracle
        self.path = None
        self.processes = {}

    def copy(self):
        """The copy's path. One that is younger than what it is made from is taken as it is. Of two runs at once one makes it."""
        made = self.explain.COPY / "target" / "release" / "oracle"
        sources = (Path(self.explain.__file__), Path(self.oracle))
        self.explain.COPY.parent.mkdir(parents=True, exist_ok=True)
        with open(f"{self.explain.COPY}.lock", "w") as lock:
            fcntl.flock(lock, fcntl.LOCK_EX)
            if made.is_file() and all(made.stat().st_mtime > source.stat().st_mtime for source in sources):
                return made
            return self.explain.make_copy(Path(self.oracle).resolve())

    def start(self, places):
        self.path = self.path or self.copy()
        environment = {**os.environ, "MENDED": " ".join(sorted(places))}
        return subprocess.Popen([self.path], stdin=subprocess.PIPE, stdout=subprocess.PIPE, text=True, env=environment)

    def ask(self, line, places, seconds=SECONDS_FOR_A_LINE):
        process = self.processes.pop(places, None) or self.start(places)
        process.stdin.write(line + "\n")
        process.stdin.flush()
        if not select.select([process.stdout], [], [], seconds)[0]:
            process.kill()
            process.communicate()
            return SLOW
        self.processes[places] = process
        return process.stdout.readline().rstrip("\n")

    def close(self):
        for process in self.processes.values():
            process.communicate()
