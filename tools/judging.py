"""Runs of a program, and how what comes out differs from what is wanted."""

import re
import subprocess
import tempfile
from dataclasses import dataclass
from pathlib import Path

from cases import Case, Order, Part
from suite import Bench

ACCEPTED, REFUSED_TEXT, REFUSED_LINE = 0, 1, 3  # exit statuses
SECONDS = 60  # the most that a run may take


def first_difference(came: str, due: str) -> str | None:
    if came == due:
        return None
    lines, wanted = ([*text.split("\n"), "(the end)"] for text in (came, due))
    return next(f"line {at} is {one!r}, and not {other!r}" for at, (one, other) in enumerate(zip(lines, wanted), 1) if one != other)


def lines_of(lines: list[str]) -> str:
    return "".join(f"{it}\n" for it in lines)


def status_of(replies: str) -> int:
    """The status of a session with these replies."""
    return REFUSED_LINE if re.search(r"^(refused|fault) ", replies, re.M) else ACCEPTED


@dataclass
class Wanted:
    """What a run has to end with. Where a text is none, it may be any."""

    status: int
    written: str | None
    told: str | None = None  # on standard error


@dataclass
class Program:
    """A program that is tested."""

    file: str
    folder: Path  # in which it is run

    def failure(self, words: list[str], wanted: Wanted, typed: str = "") -> str | None:
        """Runs the program with these words, and tells how that ends otherwise."""
        how = {"capture_output": True, "timeout": SECONDS, "cwd": self.folder}
        ran = subprocess.run([self.file, *words], input=typed.encode("latin-1"), **how)
        for where, came, due in (("", ran.stdout, wanted.written), ("standard error: ", ran.stderr, wanted.told)):
            difference = None if due is None else first_difference(came.decode("latin-1"), due)
            if difference:
                return f"{words[0]}: {where}{difference}"
        return f"{words[0]}: the status is {ran.returncode}, and not {wanted.status}" if ran.returncode != wanted.status else None

    def failure_in_part(self, file: str, part: Part) -> str | None:
        words, written = [file, "--program", "Main"], lines_of(part.wanted)
        match part.words.split():
            case ["session", *limit]:
                return self.failure(["run", *words, *(["--steps", limit[1]] if limit else [])], Wanted(status_of(written), written), lines_of(part.typed))
            case ["trial", *_]:
                return self.failure(["run", *words], Wanted(status_of(written), written), lines_of(part.typed))
            case ["layout"]:
                return self.failure(["layout", *words], Wanted(ACCEPTED, written))
            case ["ok"]:
                runs = [("check", "ok\n"), ("layout", None), ("run", "")]
                return next(filter(None, (self.failure([verb, *words], Wanted(ACCEPTED, it)) for verb, it in runs)), None)
            case ["refused", *_]:
                wanted = Wanted(REFUSED_TEXT, f"{part.words}\n")
                return next(filter(None, (self.failure([verb, *words], wanted) for verb in ("check", "layout", "run"))), None)
        return f"there is no part {part.words!r}"

    def failure_in_case(self, case: Case) -> str | None:
        with tempfile.NamedTemporaryFile(suffix=".st") as file:
            file.write(case.text.encode("latin-1"))
            file.flush()
            failures = [self.failure_in_part(file.name, part) for part in case.parts]
        return next(filter(None, failures), None if failures else "behind its text no line of -- stands")

    def failure_in_last_line(self, text: str, line: str, reply: str) -> str | None:
        """A line that lacks its line feed has this reply."""
        with tempfile.NamedTemporaryFile(suffix=".st") as file:
            file.write(text.encode("latin-1"))
            file.flush()
            return self.failure(["run", file.name, "--program", "Main"], Wanted(status_of(reply + "\n"), f"{reply}\n"), line)

    def failure_in_example(self, text: Path) -> str | None:
        """An example is accepted, and its session has the replies that stand beside it."""
        words, session = [str(text), "--program", "Main"], text.with_suffix(".session")
        failure = self.failure(["check", *words], Wanted(ACCEPTED, "ok\n", told=""))
        if failure or not session.exists():
            return failure
        replies = text.with_suffix(".replies").read_text()
        return self.failure(["run", *words], Wanted(status_of(replies), replies), session.read_text())

    def failure_in_bench(self, bench: Bench) -> str | None:
        """A program of bench/ comes to the result that the same in Lua and in C comes to."""
        replies = "ok\n" * bench.scans + f"Main.R = {bench.result}\n"
        return self.failure(["run", bench.file(".st"), "--program", "Main", "--steps", "10000000"], Wanted(ACCEPTED, replies), bench.session())

    def failure_in_message(self, verb: str, text: Path, *more: str) -> str | None:
        """A text that is refused has the message that stands beside it. The program runs in its folder, since the message names the file."""
        wanted = Wanted(REFUSED_TEXT, None, told=text.with_suffix(".told").read_text("latin-1"))
        return Program(self.file, text.parent).failure([verb, text.name, "--program", "Main", *more], wanted)

    def failure_in_explained(self, session: Path) -> str | None:
        """A session is explained on standard error as stands beside it, and isn't where it is to be quiet; its replies are the same."""
        words, typed = ["run", f"{session.stem}.st", "--program", "Main"], session.read_text()
        replies, told = (session.with_suffix(suffix).read_text() for suffix in (".replies", ".told"))
        here, status = Program(self.file, session.parent), status_of(replies)
        return here.failure(words, Wanted(status, replies, told), typed) or here.failure([*words, "--quiet"], Wanted(status, replies, ""), typed)

    def failure_in_words(self, command: Path) -> str | None:
        """A command, run in its folder, writes on both streams and ends as stands beside it, its status last."""
        return Program(self.file, command.parent).failure_in_command(f"{{ {command.read_text().strip()}\n}} 2>&1; echo $?", command.with_suffix(".written").read_text())

    def failure_in_order(self, order: Order) -> str | None:
        """An order ends with its status, and what is written has its parts."""
        how = {"capture_output": True, "text": True, "timeout": SECONDS, "cwd": self.folder, "stdin": subprocess.DEVNULL}
        ran = subprocess.run([self.file, *order.words], **how)
        if ran.returncode != order.status:
            return f"the status is {ran.returncode}, and not {order.status}"
        return next((f"{it!r} isn't written" for it in order.parts if it not in ran.stdout + ran.stderr), None)

    def failure_in_command(self, command: str, written: str) -> str | None:
        """A command that a page shows writes what stands below it there."""
        how = {"capture_output": True, "text": True, "timeout": SECONDS, "cwd": self.folder, "stdin": subprocess.DEVNULL}
        return first_difference(subprocess.run(["bash", "-c", command.replace("./stc", self.file)], **how).stdout, written)
