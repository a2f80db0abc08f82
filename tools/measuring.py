"""What measures of the program share: the processor time of a run, its peak of memory, its instructions, and where figures are kept."""
import csv
import os
import subprocess
import sys
import tempfile

TOP = os.path.dirname(os.path.dirname(os.path.abspath(__file__)))


def program_at_hand():
    """The path of the program that the variable STC names; else of the one that ./stc runs, which it unpacks, or proves and builds,
    where that isn't done."""
    if named := os.environ.get("STC"):
        return os.path.abspath(named)
    subprocess.run([os.path.join(TOP, "stc"), "--version"], check=True, stdout=subprocess.DEVNULL)
    with open(os.path.join(TOP, "out", "stc", "current")) as it:
        return os.path.join(TOP, it.readline().strip())


def measured(words, lines=os.devnull):
    """Processor time in seconds, and what was written into a pipe, of a run with these lines as its input."""
    with open(lines) as typed, subprocess.Popen(words, stdin=typed, stdout=subprocess.PIPE) as run:
        written = run.stdout.read().decode()
        _, status, usage = os.wait4(run.pid, 0)
        run.returncode = os.waitstatus_to_exitcode(status)
    if status != 0:
        sys.exit(f"{words}: status {status}")
    return usage.ru_utime + usage.ru_stime, written


def peak(words, lines=os.devnull):
    """The peak of memory of a run in MB. What `wait4` says is at least the peak of the process that starts the run, so a small one
    does: `/usr/bin/time`, from Debian's package time."""
    with tempfile.NamedTemporaryFile("r") as told, open(lines) as typed:
        timed = ["/usr/bin/time", "--format=%M", f"--output={told.name}", *words]
        subprocess.run(timed, stdin=typed, stdout=subprocess.DEVNULL, check=True)
        return int(told.read()) / 1024


def instructions(words, lines=os.devnull):
    """The instructions of a run, as valgrind's callgrind counts them."""
    tool = ["valgrind", "--tool=callgrind", "--trace-children=yes", "--callgrind-out-file=/dev/null"]
    with open(lines) as typed:
        run = subprocess.run(tool + words, stdin=typed, capture_output=True, text=True, check=True)
    return sum(int(line.split()[-1]) for line in run.stderr.splitlines() if "Collected" in line)


def speed_program():
    """The path of st_speed, which is proved and built first, where that isn't done."""
    folder = os.path.join(TOP, "crates", "st_speed")
    built = subprocess.run(["rt", "run"], cwd=folder, stdin=subprocess.DEVNULL, capture_output=True, text=True)
    if built.returncode:
        sys.exit(built.stdout + built.stderr)
    return os.path.join(folder, "out", "st_speed")


def record(subject, case, figures):
    """Puts the figures of a case, by their names with their units, behind the file that MEASURES names, where it names one."""
    if file := os.environ.get("MEASURES"):
        with open(file, "a", newline="") as it:
            csv.writer(it, lineterminator="\n").writerows((subject, case, name, f"{value:.4g}", unit) for name, (value, unit) in figures.items())
