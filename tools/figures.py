"""The figures of docs/performance.csv, as tables of a page."""

import csv
import re
from pathlib import Path

import suite

Tables = dict[str, dict[str, dict[str, tuple[float, str]]]]  # by subject, case and name: a value and its unit


def read(file: Path) -> Tables:
    tables: Tables = {}
    with open(file, newline="", encoding="utf-8") as it:
        for row in csv.DictReader(it):
            cases = tables.setdefault(row["subject"], {})
            cases.setdefault(row["case"], {})[row["figure"]] = float(row["value"]), row["unit"]
    return tables


def shown(value: float, unit: str) -> str:
    if unit == "us" and value >= 1_000:
        value, unit = value / 1000, "ms"
    digits = 0 if value >= 100 else 1 if value >= 10 else 2
    return f"{value:,.{digits}f} {unit}".strip()


def table(cases: dict[str, dict[str, tuple[float, str]]]) -> str:
    """One row for each case, and one column for each name."""
    names = list(dict.fromkeys(name for case in cases.values() for name in case))
    rows = [["", *names], ["---"] * (len(names) + 1)]
    rows += [[case, *(shown(*figures[name]) if name in figures else "" for name in names)] for case, figures in cases.items()]
    return "".join(f"| {' | '.join(row)} |\n" for row in rows).replace("| --- ", "|---").replace("|--- |", "|---|").replace("|  |", "| |")


def filled(page: str, tables: Tables) -> str:
    """A page with a table behind each `<!-- figures SUBJECT -->`, the greatest figure behind each `<!-- most SUBJECT: NAME -->`, the
    geometric mean of figures behind each `<!-- mean SUBJECT: NAME -->`, and the machine."""

    def told(found: re.Match[str]) -> str:
        figures = [case[found[3]] for case in tables[found[2]].values() if found[3] in case]
        if not figures:
            return found[0]
        figure = max(figures) if found[1] == "most" else (suite.mean([value for value, _ in figures]), figures[0][1])
        return f"<!-- {found[1]} {found[2]}: {found[3]} -->{shown(*figure)}<!-- end -->"

    def machine() -> str:
        name, cores = next((case, it["cores"][0]) for case, it in tables["machine"].items() if "cores" in it)
        return f"{cores:.0f} cores of {name}, at {tables['machine']['clock']['MHz'][0]:,.0f} MHz."

    page = re.sub(r"<!-- machine -->[^\n]*<!-- end -->", lambda _: f"<!-- machine -->{machine()}<!-- end -->", page)
    page = re.sub(r"<!-- (most|mean) ([^:\n]+): ([^\n]+?) -->[^\n]*?<!-- end -->", told, page)
    return re.sub(r"<!-- figures ([\w ]+) -->\n.*?<!-- end -->", lambda it: f"<!-- figures {it[1]} -->\n\n{table(tables[it[1]])}\n<!-- end -->", page, flags=re.S)
