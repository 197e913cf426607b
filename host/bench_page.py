"""Writes the figures of host/bench into docs/BENCHMARK.md, between its two markers, and the plot docs/benchmark.svg."""
import math
import struct
import sys

BEGIN = "<!-- figures: written by host/bench -->"
END = "<!-- end of the figures -->"
FIELDS = ("groups states rows di asked p demand bits passes looks library native second "
          "by_native by_native_least by_native_greatest by_second by_second_least by_second_greatest second_rounds").split()

STACKS = {"library": "the library's report", "cover": "the library's cover", "widths": "the library's widths",
          "report_part": "a part of a report", "cover_part": "a part of a cover", "replay": "the library's replay",
          "replay_part": "a part of a replay", "check": "the library's check", "native": "the native report"}

CHECKS = {"own_random": "our cover of `random`", "own_pairs": "our cover of `pairs`", "own_halves": "our cover of `halves`",
          "own_controller": "our cover of a controller", "own_one_input": "our cover of rows that care for one input each",
          "own_two_inputs": "our cover of rows that care for one input and the last", "one_input": "one input a row, one-hot",
          "two_inputs": "one input and the last a row, one-hot", "wrong_at_the_end": "one input a row, one-hot, wrong at the very end"}


def read_results(path):
    """The results by kind of line: rows as dictionaries, replays as lists of numbers, checks as lists of words, the others as they stand."""
    rows, stacks, replays, checks, facts = [], {}, [], [], {}
    for line in open(path):
        word, _, rest = line.strip().partition(" ")
        if word == "row":
            values = rest.split()
            row = {name: value if name == "groups" else float(value) for name, value in zip(FIELDS, values)}
            rows.append(row)
        elif word == "stack":
            name, size, *plan = rest.split()
            stacks[name] = int(size), plan
        elif word == "replay":
            replays.append([float(value) for value in rest.split()])
        elif word == "check":
            checks.append(rest.split())
        else:
            facts[word] = rest
    return rows, stacks, replays, checks, facts


def sections(elf):
    """The sections of an ELF file of 64 digits that take room when it is loaded: (is code, is written to, size)."""
    start, = struct.unpack_from("<Q", elf, 0x28)
    size, number = struct.unpack_from("<HH", elf, 0x3A)
    for at in range(start, start + size * number, size):
        _, kind, flags, _, _, length = struct.unpack_from("<IIQQQQ", elf, at)
        if flags & 2:
            yield bool(flags & 4), bool(flags & 1), length


def static_size(path):
    """Bytes of code, of constants and of data that is written to, in the objects of an archive."""
    data = open(path, "rb").read()
    code = constants = written = 0
    at = 8
    while at + 60 <= len(data):
        length = int(data[at + 48:at + 58])
        member = data[at + 60:at + 60 + length]
        if member[:4] == b"\x7fELF":
            for is_code, is_written, size in sections(member):
                code += size if is_code else 0
                written += size if is_written else 0
                constants += size if not is_code and not is_written else 0
        at += 60 + length + length % 2
    return code, constants, written


def fit(points):
    """The least-squares line through the logarithms: slope, height, and the greatest distance from it as a factor."""
    logs = [(math.log(x), math.log(y)) for x, y in points]
    mean_x = sum(x for x, _ in logs) / len(logs)
    mean_y = sum(y for _, y in logs) / len(logs)
    slope = sum((x - mean_x) * (y - mean_y) for x, y in logs) / sum((x - mean_x) ** 2 for x, _ in logs)
    height = mean_y - slope * mean_x
    away = max(abs(y - height - slope * x) for x, y in logs)
    return slope, height, math.exp(away)


def table(rows):
    yield "| groups | states | rows | DI | requirements | p | p over passes | bits | passes | looks | library µs | native µs | second µs " \
          "| library / native (least to greatest) | library / second (least to greatest) |"
    yield "|---|" + "---:|" * 14
    for row in rows:
        whole = [f"{row[name]:,.0f}" for name in "states rows di asked p demand bits passes looks".split()]
        times = [f"{row[name]:,.1f}" for name in ("library", "native", "second")]
        ratios = [f"{row[n]:.2f} ({row[n + '_least']:.2f} to {row[n + '_greatest']:.2f})" for n in ("by_native", "by_second")]
        yield "| " + " | ".join([row["groups"]] + whole + times + ratios) + " |"


def slopes(rows):
    """Over all rows, and without those of few states, where what a call costs anyhow makes the line flatter."""
    yield "| Cost of | rows with | against p: slope | farthest point | against p over passes: slope | farthest point | against looks: slope |"
    yield "|---|---|---:|---:|---:|---:|---:|"
    for name in ("library", "native", "second"):
        for least in (4, 8, 16, 40):
            chosen = [row for row in rows if row["states"] >= least]
            cells = []
            for size in ("p", "demand", "looks"):
                slope, _, away = fit([(row[size], row[name]) for row in chosen])
                cells += [f"{slope:.2f}"] + ([f"{away:.1f} times off"] if size != "looks" else [])
            yield f"| {name} | {least} states or more | " + " | ".join(cells) + " |"


def replay_table(replays):
    yield "A recorded run, of a machine with two rows for each state:"
    yield ""
    yield "| states | rows | steps | library ms | library, ns a step | second ms | second, ns a step |"
    yield "|---:|---:|---:|---:|---:|---:|---:|"
    for states, lines, steps, library, step, second, second_step in replays:
        counts = f"{states:.0f} | {lines:.0f} | {steps:,.0f}"
        yield f"| {counts} | {library / 1000:.2f} | {step:,.0f} | {second / 1000:.2f} | {second_step:,.0f} |"


def check_table(checks):
    """Codes and covers from elsewhere: what they are, their sizes, the answer, and the library's time."""
    yield "| check | states | rows | cover rows | inputs | bits | answer | library ms (least to greatest) |"
    yield "|---|---:|---:|---:|---:|---:|---|---:|"
    for name, states, rows, cover_rows, inputs, bits, answer, median, least, greatest in checks:
        times = [f"{float(time) / 1000:,.2f}" for time in (median, least, greatest)]
        yield f"| {CHECKS[name]} | {states} | {rows} | {cover_rows} | {inputs} | {bits} | `{answer.replace('_', ' ')}` " \
              f"| {times[0]} ({times[1]} to {times[2]}) |"


def figures(rows, stacks, replays, checks, facts, sizes):
    ratios = [row["by_native"] for row in rows]
    yield f"Run on {facts['date']}, {facts['machine']}; {facts['checked']} listings compared first, without a difference."
    yield ""
    yield from table(rows)
    yield ""
    over = sum(ratio > 1 for ratio in ratios)
    yield f"Library / native: from {min(ratios):.2f} to {max(ratios):.2f}, above 1.0 on {over} of {len(rows)} rows."
    for least in (16, 40):
        large = [row["by_native"] for row in rows if row["states"] >= least]
        yield f"In the mean of the {len(large)} rows of {least} states or more {sum(large) / len(large):.2f}."
    yield ""
    yield from slopes(rows)
    yield ""
    yield from replay_table(replays)
    yield ""
    yield from check_table(checks)
    yield ""
    yield "| Size | bytes |"
    yield "|---|---:|"
    for name, meant in STACKS.items():
        size, (groups, states, lines, di) = stacks[name]
        yield f"| stack of one call, {meant}, on the row that needs most ({groups}, {states} states, {lines} rows, {di} DI) | {size:,} |"
    for name, size in zip(("code", "constants", "data written to"), sizes):
        yield f"| {name} in the library's archive | {size:,} |"


WIDTH, HEIGHT, LEFT, BOTTOM, TOP, RIGHT = 780, 520, 80, 70, 50, 40
COLOURS = {"library": "#1f5fa8", "native": "#c2571a"}


class Scale:
    """A logarithmic axis from one power of ten to another, between two places on the paper."""

    def __init__(self, values, start, end):
        self.low = math.floor(math.log10(min(values)))
        self.high = math.ceil(math.log10(max(values)))
        self.start, self.end = start, end

    def at(self, value):
        part = (math.log10(value) - self.low) / (self.high - self.low)
        return self.start + part * (self.end - self.start)

    def powers(self):
        return range(self.low, self.high + 1)


def power_name(power):
    return f"{10 ** power:,}" if power >= 0 else f"{10.0 ** power:g}"


def axes(x, y):
    left, right, low, high = LEFT, WIDTH - RIGHT, HEIGHT - BOTTOM, TOP
    for power in x.powers():
        at = x.at(10.0 ** power)
        yield f'<line x1="{at:.1f}" y1="{low}" x2="{at:.1f}" y2="{high}" stroke="#ddd"/>'
        yield f'<text x="{at:.1f}" y="{low + 20}" text-anchor="middle">{power_name(power)}</text>'
    for power in y.powers():
        at = y.at(10.0 ** power)
        yield f'<line x1="{left}" y1="{at:.1f}" x2="{right}" y2="{at:.1f}" stroke="#ddd"/>'
        yield f'<text x="{left - 8}" y="{at + 4:.1f}" text-anchor="end">{power_name(power)}</text>'
    name = "p: members of all requirements"
    yield f'<text x="{(left + right) / 2}" y="{HEIGHT - 20}" text-anchor="middle">{name}</text>'
    yield f'<text transform="translate(18 {(low + high) / 2}) rotate(-90)" text-anchor="middle">microseconds of one report</text>'


def series(name, rows, x, y):
    slope, height, _ = fit([(row["p"], row[name]) for row in rows])
    colour = COLOURS[name]
    ends = (min(row["p"] for row in rows), max(row["p"] for row in rows))
    (x1, y1), (x2, y2) = [(x.at(end), y.at(math.exp(height + slope * math.log(end)))) for end in ends]
    yield f'<line x1="{x1:.1f}" y1="{y1:.1f}" x2="{x2:.1f}" y2="{y2:.1f}" stroke="{colour}" stroke-width="1.5"/>'
    for row in rows:
        yield f'<circle cx="{x.at(row["p"]):.1f}" cy="{y.at(row[name]):.1f}" r="3.5" fill="{colour}"/>'
    at = TOP + 18 + 20 * list(COLOURS).index(name)
    yield f'<circle cx="{LEFT + 18}" cy="{at - 4}" r="4" fill="{colour}"/>'
    yield f'<text x="{LEFT + 30}" y="{at}">{name}, slope {slope:.2f}</text>'


def plot(rows, facts):
    x = Scale([row["p"] for row in rows], LEFT, WIDTH - RIGHT)
    y = Scale([row[name] for row in rows for name in COLOURS], HEIGHT - BOTTOM, TOP)
    yield f'<svg xmlns="http://www.w3.org/2000/svg" width="{WIDTH}" height="{HEIGHT}" font-family="sans-serif" font-size="13">'
    yield f'<rect width="{WIDTH}" height="{HEIGHT}" fill="white"/>'
    yield f'<text x="{WIDTH / 2}" y="28" text-anchor="middle" font-size="16">Cost of a report, {facts["machine"]}</text>'
    yield from axes(x, y)
    for name in COLOURS:
        yield from series(name, rows, x, y)
    yield "</svg>"


def main(results, archive, docs):
    rows, stacks, replays, checks, facts = read_results(results)
    page = open(f"{docs}/BENCHMARK.md").read()
    before, _, rest = page.partition(BEGIN)
    _, _, after = rest.partition(END)
    lines = "\n".join(figures(rows, stacks, replays, checks, facts, static_size(archive)))
    open(f"{docs}/BENCHMARK.md", "w").write(f"{before}{BEGIN}\n{lines}\n{END}{after}")
    open(f"{docs}/benchmark.svg", "w").write("\n".join(plot(rows, facts)) + "\n")


if __name__ == "__main__":
    main(*sys.argv[1:])
