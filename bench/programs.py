"""The programs that are measured, each as equations, and the same in C and in awk.

An equation is a name and a term. A term is a number, a name, or a tuple: ('+', a, b), ('-', a, b), ('/', a, number),
('<', a, b), ('if', condition, a, b), ('fby', number, a). The last equation's name is the output, the input is x. Values stay
small, so that awk's numbers, which are none of 32 bits, are the same."""

# y = 0 fby (y + x)
DELAYED_SUM = [("y", ("fby", 0, ("+", "y", "x")))]


def thirty():
    """Thirty equations in a row: sums with what was before, choices and halves."""
    equations, last = [], "x"
    for number in range(1, 31):
        name = "y" if number == 30 else f"a{number}"
        if number % 3 == 1:
            term = ("-", ("+", last, ("fby", 0, last)), number)
        elif number % 3 == 2:
            term = ("if", ("<", last, 100), ("+", last, 1), ("-", last, 50))
        else:
            term = ("+", ("/", last, 2), ("fby", 0, "x"))
        equations.append((name, term))
        last = name
    return equations


def stages(count):
    """A filter of so many stages: each comes a quarter nearer to the one before it at each instant."""
    equations, last = [], "x"
    for number in range(1, count + 1):
        name = "y" if number == count else f"f{number}"
        equations.append((name, ("fby", 0, ("+", name, ("/", ("-", last, name), 4)))))
        last = name
    return equations


PROGRAMS = {"delayed_sum": DELAYED_SUM, "thirty": thirty(), "fifty": stages(50), "hundred_calls": stages(100)}


# ---- Heptagon


def heptagon_term(term):
    if isinstance(term, int):
        return str(term)
    if isinstance(term, str):
        return term
    if term[0] == "if":
        return "(if {} then {} else {})".format(*map(heptagon_term, term[1:]))
    return "({} {} {})".format(heptagon_term(term[1]), term[0], heptagon_term(term[2]))


def heptagon(equations):
    names = [name for name, _ in equations if name != "y"]
    variables = f"var {','.join(names)}:int;\n" if names else ""
    lines = ";\n  ".join(f"{name} = {heptagon_term(term)}" for name, term in equations)
    return f"node main(x:int) returns (y:int)\n{variables}let\n  {lines}\ntel\n"


def called_stages(count):
    """The same filter, whose stages are calls of one node."""
    names = [f"f{number}" for number in range(1, count)] + ["y"]
    lines = ";\n  ".join(f"{name} = stage({last})" for name, last in zip(names, ["x"] + names))
    return (
        "node stage(x:int) returns (y:int)\nlet\n  y = 0 fby (y + ((x - y) / 4))\ntel\n"
        + f"node main(x:int) returns (y:int)\nvar {','.join(names[:-1])}:int;\nlet\n  {lines}\ntel\n"
    )


def text(program):
    """The program in Heptagon."""
    return called_stages(100) if program == "hundred_calls" else heptagon(PROGRAMS[program])


# ---- C and awk


def step_term(term, cells):
    """The term in C or awk, and a cell more for each `fby` in it: its first value and what it keeps."""
    if isinstance(term, int):
        return str(term)
    if isinstance(term, str):
        return term
    if term[0] == "fby":
        number = len(cells)
        cells.append((term[1], None))
        cells[number] = (term[1], step_term(term[2], cells))
        return f"m{number}"
    if term[0] == "if":
        return "({} ? {} : {})".format(*(step_term(part, cells) for part in term[1:]))
    left, right = (step_term(part, cells) for part in term[1:])
    return f"HALF({left}, {right})" if term[0] == "/" else f"({left} {term[0]} {right})"


def steps(equations):
    cells = []
    lines = [f"{name} = {step_term(term, cells)};" for name, term in equations]
    # What is kept is taken from this instant, so all of it is computed before any cell changes.
    lines += [f"n{number} = {kept};" for number, (_, kept) in enumerate(cells)]
    lines += [f"m{number} = n{number};" for number in range(len(cells))]
    return cells, lines


C_BY_LIBRARY = """
static int next_row(int *x) { return scanf("%d", x) == 1; }
static void write_row(int y) { printf("%d\\n", y); }
static void end(void) {}
"""

C_BY_HAND = """
static char in[65536], out[65536];
static size_t at, size, put;
static int byte(void) {
    if (at == size) { size = fread(in, 1, sizeof in, stdin); at = 0; if (size == 0) return -1; }
    return in[at++];
}
static int next_row(int *x) {
    int c = byte(), minus = 0, value = 0;
    if (c < 0) return 0;
    if (c == '-') { minus = 1; c = byte(); }
    while (c >= '0' && c <= '9') { value = value * 10 + (c - '0'); c = byte(); }
    *x = minus ? -value : value;
    return 1;
}
static void end(void) { fwrite(out, 1, put, stdout); put = 0; }
static void write_row(int y) {
    char digits[12]; int count = 0; unsigned rest = y < 0 ? 0u - (unsigned)y : (unsigned)y;
    if (put > sizeof out - 16) end();
    if (y < 0) out[put++] = '-';
    do { digits[count++] = '0' + rest % 10; rest /= 10; } while (rest != 0);
    while (count > 0) out[put++] = digits[--count];
    out[put++] = '\\n';
}
"""


def c(equations, devices):
    cells, lines = steps(equations)
    names = ["x"] + [name for name, _ in equations]
    kept = [f"m{number} = {first}, n{number}" for number, (first, _) in enumerate(cells)]
    body = "\n        ".join(lines)
    return (
        "#include <stdio.h>\n#define HALF(a, b) ((a) / (b))\n" + devices
        + f"int main(void) {{\n    int {', '.join(names)};\n    int {', '.join(kept)};\n"
        + f"    while (next_row(&x)) {{\n        {body}\n        write_row(y);\n    }}\n    end();\n    return 0;\n}}\n"
    )


def awk(equations):
    cells, lines = steps(equations)
    first = " ".join(f"m{number} = {value};" for number, (value, _) in enumerate(cells))
    body = "\n    ".join(lines).replace("HALF(", "half(")
    return (
        "function half(a, b) { return int(a / b) }\n"
        + f"BEGIN {{ {first} }}\n{{\n    x = $1\n    {body}\n    print y\n}}\n"
    )
