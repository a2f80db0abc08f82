"""Makes random programs, most of which keep the rules: all elementary types, arrays, structures, timers, functions, blocks, charts."""

import random
from dataclasses import dataclass, field

WIDTHS = {"SINT": 8, "INT": 16, "DINT": 32, "LINT": 64, "USINT": 8, "UINT": 16, "UDINT": 32, "ULINT": 64}
SIGNED = ("SINT", "INT", "DINT", "LINT")
INTEGERS = tuple(WIDTHS)
BIT_WIDTHS = {"BYTE": 8, "WORD": 16, "DWORD": 32, "LWORD": 64}
BITS = tuple(BIT_WIDTHS)
ELEMENTARY = (*INTEGERS, "BOOL", *BITS, "TIME")

# Units that every program has at hand. `Deep` calls another function; `Turn` has a chart; `Keep` has a timer.
UNITS = """TYPE Pair : STRUCT A : INT; B : ARRAY [0..2] OF BOOL; END_STRUCT; END_TYPE
FUNCTION Share : INT VAR_INPUT X : INT; Y : INT := 3; END_VAR Share := X / Y; END_FUNCTION
FUNCTION Deep : INT VAR_INPUT X : INT; END_VAR VAR N : INT := 2; END_VAR N := N + Share(X, N); Deep := N; END_FUNCTION
FUNCTION_BLOCK Keep VAR_INPUT Go : BOOL; END_VAR VAR_OUTPUT N : INT; END_VAR VAR T : TON; END_VAR
T(IN := Go, PT := T#5ms); IF T.Q THEN N := N + 1; END_IF; END_FUNCTION_BLOCK
FUNCTION_BLOCK Turn VAR_INPUT Go : BOOL; END_VAR VAR_OUTPUT N : INT; Lamp : BOOL; END_VAR
INITIAL_STEP S1: Lamp(S); END_STEP STEP S2: Lamp(R); Up(P); END_STEP
TRANSITION FROM S1 TO S2 := Go; END_TRANSITION TRANSITION FROM S2 TO S1 := S2.T >= T#3ms; END_TRANSITION
ACTION Up: N := N + 1; END_ACTION END_FUNCTION_BLOCK
"""

# What an instance has for inputs and outputs, with their types.
BLOCKS = {
    "TON": ({"IN": "BOOL", "PT": "TIME"}, {"Q": "BOOL", "ET": "TIME"}),
    "TOF": ({"IN": "BOOL", "PT": "TIME"}, {"Q": "BOOL", "ET": "TIME"}),
    "TP": ({"IN": "BOOL", "PT": "TIME"}, {"Q": "BOOL", "ET": "TIME"}),
    "CTU": ({"CU": "BOOL", "R": "BOOL", "PV": "INT"}, {"Q": "BOOL", "CV": "INT"}),
    "CTD": ({"CD": "BOOL", "LD": "BOOL", "PV": "INT"}, {"Q": "BOOL", "CV": "INT"}),
    "R_TRIG": ({"CLK": "BOOL"}, {"Q": "BOOL"}),
    "F_TRIG": ({"CLK": "BOOL"}, {"Q": "BOOL"}),
    "Keep": ({"Go": "BOOL"}, {"N": "INT"}),
    "Turn": ({"Go": "BOOL"}, {"N": "INT", "Lamp": "BOOL"}),
}


def literal(rng: random.Random, kind: str) -> str:
    """A value of a type, as a text that is one of it in programs and in sessions."""
    if kind == "BOOL":
        return rng.choice(("TRUE", "FALSE"))
    if kind == "TIME":
        return rng.choice(("T#0ms", "T#1ms", "T#5ms", "T#-3ms", "T#1s20ms"))
    if kind in BITS:
        return f"{kind}#16#{rng.getrandbits(BIT_WIDTHS[kind]):X}"
    low = -(1 << WIDTHS[kind] - 1) if kind in SIGNED else 0
    high = low + (1 << WIDTHS[kind]) - 1
    return f"{kind}#{rng.choice((low, high, 0, 1, 2, 3, 5, rng.randint(low, high)))}"


@dataclass
class Program:
    """The main program: its inputs, its variables by name with their types, and how its body is made."""

    inputs: dict[str, str] = field(default_factory=dict)
    variables: dict[str, str] = field(default_factory=dict)
    has_chart: bool = False
    seed: int = 0

    def changed(self, rng: random.Random) -> "Program":
        """Another program, which shares much with this one."""
        variables = dict(self.variables)
        for name in list(variables):
            if rng.random() < 0.15:
                variables[rng.choice((name, name + "x"))] = variables.pop(name)
            elif rng.random() < 0.15:
                del variables[name]
            elif rng.random() < 0.1:
                variables[name] = kind_of_variable(rng)
        if rng.random() < 0.5:
            variables = {f"N{rng.randrange(9)}": kind_of_variable(rng)} | variables
        has_chart = self.has_chart ^ (rng.random() < 0.15)
        return Program(dict(self.inputs), variables, has_chart, rng.getrandbits(32))

    def text(self) -> str:
        """The program's text, in lines."""
        rng = random.Random(self.seed)
        body = Body(rng, self)
        inputs = "".join(f"{name} : {kind}; " for name, kind in self.inputs.items())
        variables = "".join(f"{name} : {kind}{initial(rng, kind)}; " for name, kind in self.variables.items())
        lines = [f"PROGRAM Main VAR_INPUT {inputs}END_VAR", f"VAR {variables}I9 : INT; END_VAR"]
        lines += body.chart() if self.has_chart else body.statements(3, rng.randint(1, 6))
        return UNITS + "\n".join(lines) + "\nEND_PROGRAM\n"


def kind_of_variable(rng: random.Random) -> str:
    """A type for a variable."""
    return rng.choice((*ELEMENTARY, *ELEMENTARY, *BLOCKS, "Pair", f"ARRAY [0..{rng.randint(1, 3)}] OF INT", "ARRAY [-1..0,2..3] OF Pair"))


def initial(rng: random.Random, kind: str) -> str:
    """An initial value, for some variables."""
    return f" := {literal(rng, kind)}" if kind in ELEMENTARY and rng.random() < 0.5 else ""


def new_program(rng: random.Random) -> Program:
    """A random program."""
    inputs = {f"In{number}": rng.choice(ELEMENTARY) for number in range(rng.randint(0, 3))} | {"Go": "BOOL"}
    variables = {f"V{number}": kind_of_variable(rng) for number in range(rng.randint(1, 8))}
    return Program(inputs, variables, rng.random() < 0.4, rng.getrandbits(32))


class Body:
    """Makes statements over the variables of a program."""

    def __init__(self, rng: random.Random, program: Program) -> None:
        self.rng = rng
        self.instances = {name: kind for name, kind in program.variables.items() if kind in BLOCKS}
        self.targets = dict(self.places(program.variables))
        outputs = {f"{name}.{out}": kind for name, block in self.instances.items() for out, kind in BLOCKS[block][1].items()}
        self.values = self.targets | outputs | program.inputs

    def places(self, variables: dict[str, str]) -> list[tuple[str, str]]:
        """Places that can be assigned, with their types. An index may be out of range."""
        found = []
        for name, kind in variables.items():
            index = self.rng.choice(("0", "1", "I9", "3"))
            if kind in ELEMENTARY:
                found.append((name, kind))
            elif kind == "Pair":
                found += [(f"{name}.A", "INT"), (f"{name}.B[{index}]", "BOOL")]
            elif kind.endswith("OF INT"):
                found.append((f"{name}[{index}]", "INT"))
            elif kind.endswith("OF Pair"):
                found.append((f"{name}[-1,2].A", "INT"))
        return found

    def place(self, kind: str, among: dict[str, str]) -> str | None:
        """A place of a type."""
        fitting = [name for name, other in among.items() if other == kind]
        return self.rng.choice(fitting) if fitting else None

    def value(self, kind: str, depth: int) -> str:
        """An expression of a type."""
        place = self.place(kind, self.values)
        if depth == 0 or self.rng.random() < 0.25:
            return place if place and self.rng.random() < 0.7 else literal(self.rng, kind)
        left, right = self.value(kind, depth - 1), self.value(kind, depth - 1)
        if kind == "BOOL":
            other = self.rng.choice(ELEMENTARY)
            compared = f"({self.value(other, depth - 1)} {self.rng.choice(('=', '<>', '<', '>='))} {self.value(other, depth - 1)})"
            return self.rng.choice((compared, f"(NOT {left})", f"({left} {self.rng.choice(('AND', 'OR', 'XOR', '&'))} {right})"))
        choices = [f"SEL({self.value('BOOL', depth - 1)}, {left}, {right})", f"MAX({left}, {right})"]
        if kind == "TIME":
            choices.append(f"({left} {self.rng.choice('+-')} {right})")
        elif kind in BITS:
            choices += [f"({left} XOR {right})", f"{self.rng.choice(('SHL', 'SHR', 'ROL', 'ROR'))}({left}, {self.rng.randint(-1, 9)})"]
        else:
            choices += self.numbers(kind, left, right, depth)
        return self.rng.choice(choices)

    def numbers(self, kind: str, left: str, right: str, depth: int) -> list[str]:
        """Expressions of an integer type."""
        other = self.rng.choice([it for it in (*INTEGERS, *BITS, "BOOL") if it != kind])
        found = [f"({left} {self.rng.choice(('+', '-', '*', '/', 'MOD'))} {right})", f"ABS({left})"]
        found += [f"LIMIT({left}, {right}, {left})", f"{other}_TO_{kind}({self.value(other, depth - 1)})"]
        if kind == "INT":
            found += [f"Share({left}, {right})", f"Deep(X := {left})"]
        return found

    def statements(self, depth: int, count: int) -> list[str]:
        """Some statements."""
        return [line for _ in range(count) for line in self.statement(depth)]

    def statement(self, depth: int) -> list[str]:
        """A statement, in lines."""
        kind = self.rng.randrange(10 if depth else 6)
        if kind == 0 and self.instances:
            return [self.invocation()]
        if kind < 6:
            return [self.assignment()]
        inner = self.statements(depth - 1, self.rng.randint(0, 3))
        condition = self.value("BOOL", 2)
        if kind == 6:
            return [f"IF {condition} THEN", *inner, "ELSE", self.assignment(), "END_IF;"]
        if kind == 7:
            return [f"FOR I9 := {self.rng.randint(-1, 2)} TO {self.rng.randint(0, 4)} BY {self.rng.choice((1, 2, -1))} DO", *inner, "END_FOR;"]
        if kind == 8:
            return [f"CASE {self.value('INT', 1)} OF 0: {self.assignment()} 1..5, 7:", *inner, f"ELSE {self.assignment()} END_CASE;"]
        leave = self.rng.choice(("EXIT;", "RETURN;"))
        return [f"WHILE {condition} DO", *inner, f"IF {self.value('BOOL', 1)} THEN {leave} END_IF;", "END_WHILE;"]

    def assignment(self) -> str:
        """An assignment, or the empty statement where nothing can be assigned."""
        if not self.targets:
            return ";"
        place, kind = self.rng.choice(list(self.targets.items()))
        return f"{place} := {self.value(kind, 3)};"

    def invocation(self) -> str:
        """An invocation of an instance."""
        name, block = self.rng.choice(list(self.instances.items()))
        inputs, outputs = BLOCKS[block]
        arguments = [f"{it} := {self.value(kind, 1)}" for it, kind in inputs.items() if self.rng.random() < 0.8]
        for it, kind in outputs.items():
            target = self.place(kind, self.targets)
            if target and self.rng.random() < 0.3:
                arguments.append(f"{it} => {target}")
        return f"{name}({', '.join(arguments)});"

    def chart(self) -> list[str]:
        """A chart of some steps in a circle, with another way."""
        count = self.rng.randint(1, 4)
        lines = []
        for number in range(count):
            word = "STEP" if number else "INITIAL_STEP"
            lines.append(f"{word} S{number}: {self.associations()}END_STEP")
            condition = self.rng.choice((f"S{number}.T >= T#{self.rng.randint(0, 9)}ms", self.value("BOOL", 2), "Go"))
            lines.append(f"TRANSITION FROM S{number} TO S{(number + 1) % count} := {condition}; END_TRANSITION")
        if self.rng.random() < 0.3:
            lines.append(f"TRANSITION (PRIORITY := 1) FROM S0 TO (S0, S{count - 1}) := {self.value('BOOL', 1)}; END_TRANSITION")
        return lines + ["ACTION Act:", *self.statements(2, 2), "END_ACTION"]

    def associations(self) -> str:
        """The associations of a step."""
        found = ""
        for _ in range(self.rng.randint(0, 3)):
            flag = next((name for name, kind in self.targets.items() if kind == "BOOL" and name.isalnum()), None)
            name = self.rng.choice(("Act", flag or "Act"))
            found += f"{name}({self.rng.choice(('', 'N', 'S', 'R', 'P', 'L, T#3ms', 'D, T#2ms'))}); "
        return found
