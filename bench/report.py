#!/usr/bin/env -S python3 -B
"""report.py [--into FILE]: the tables of what bench/run has measured, in Markdown, to standard output or between two marker lines of a file."""
import argparse
import os
import sys

from figures import CHANGES, COUNTS, FOLDER, PEERS, SIDES, STAGES, bound, by_peer, levels, log_squared, mean_visits, rows, sizes

START, END = "<!-- tables -->", "<!-- end of tables -->"
TWINS = ["twin", "parted"]
OTHERS = [peer for peer in PEERS if peer not in ["register"] + TWINS]


def figure(value):
    """Three digits at least, thousands set apart."""
    return f"{value:,.1f}" if value < 100 else f"{value:,.0f}"


def ratio(value):
    return f"{value:.2f}" if value < 10 else f"{value:,.0f}"


def table(head, lines):
    out = ["| " + " | ".join(head) + " |", "|" + "---|" + "---:|" * (len(head) - 1)]
    return "\n".join(out + ["| " + " | ".join(line) + " |" for line in lines]) + "\n"


def times_of(times, instructions, n):
    """One number of marks: a line for each stage."""
    lines = []
    for stage in STAGES:
        ns = {peer: times[n, stage, peer]["ns"] for peer in PEERS}
        best = min(OTHERS, key=ns.get)
        steps = {peer: instructions[n, stage, peer]["instructions"] for peer in PEERS}
        row = times[n, stage, "register"]
        visits = [figure(mean_visits(row)), str(row["most"])] if stage in COUNTS else ["", ""]
        ratios = [ratio(of["register"] / of[twin]) for twin in TWINS for of in (ns, steps)] + [f"{ratio(ns['register'] / ns[best])} ({best})"]
        lines.append([stage] + [figure(ns[peer]) for peer in PEERS] + ratios + visits)
    head = ["stage"] + PEERS + [f"register / {twin}, {what}" for twin in TWINS for what in ("time", "instructions")]
    head += ["register / best of the others, time", "visits, mean", "most"]
    return f"**{n:,} marks**, ns per operation\n\n" + table(head, lines)


def instructions_of(instructions):
    lines = [[f"{n:,} marks: {stage}"] + [figure(instructions[n, stage, peer]["instructions"]) for peer in PEERS]
             for n in sizes(instructions) for stage in STAGES]
    return table(["stage"] + PEERS, lines)


def missed_of(instructions):
    lines = []
    for n in sizes(instructions):
        for stage in STAGES:
            of = {peer: instructions[n, stage, peer] for peer in PEERS}
            lines.append([f"{n:,} marks: {stage}"] + [figure(of[peer]["missed"]) for peer in PEERS] + [figure(of["register"]["branches"])])
    return table(["stage"] + PEERS + ["of the register's branches"], lines)


def rows_of(times, rows_times, rows_instructions):
    """Changes of marks in rows, and beside them those of the same number of marks as the camera gives them."""
    lines = []
    for n in sizes(rows_times):
        for stage in CHANGES:
            line = []
            for peer in ["register", "twin"]:
                key = n, stage, peer
                ns, steps = rows_times[key]["ns"], rows_instructions[key]
                line += [figure(ns), ratio(ns / times[key]["ns"]), figure(steps["instructions"]), figure(steps["missed"])]
            lines.append([f"{n:,} marks: {stage}"] + line)
    head = [f"{peer}, {what}" for peer in ["register", "twin"] for what in ("ns", "times that of other marks", "instructions", "branches missed")]
    return table(["stage"] + head, lines)


def growth_of(growth):
    lines = []
    for n in sizes(growth):
        of = {stage: growth[n, stage, "register"] for stage in STAGES}
        line = [levels(n), figure(mean_visits(of["count 30 cm"])), of["count 30 cm"]["most"], max(of[stage]["most"] for stage in COUNTS),
                f"{bound(n):,}", figure(log_squared(n))]
        lines.append([f"{n:,}"] + [str(value) for value in line] + [figure(of[stage]["ns"]) for stage in COUNTS + ["insert", "strike"]])
    head = ["n", "D(n)", "visits of 30 cm, mean", "most", "most of the three sizes", "bound (4D + 1)(2D + 1)", "log2(n)²"]
    return table(head + [f"ns per count, {side} cm" for side in SIDES] + ["ns per insertion", "ns per strike"], lines)


def memory_of(lines):
    def share(row, part, whole):
        return f"{row[part]:,} ({row[part] / row[whole]:.1%})"

    out = [[f"{row['n']:,}", f"{row['words']:,}", f"{row['open']:,}", share(row, "fill", "words"), share(row, "rounds", "words"),
            f"{row['rounds'] / row['n']:.0f}", share(row, "rounds_pages", "pages"), f"{row['levels_written']} of {row['levels']}"] for row in lines]
    head = ["C = n", "W(C)", "words written by open", "after the fill", "after the rounds", "words a mark", "pages written", "levels written"]
    return table(head, out)


def opening_of(lines):
    out = [[f"{row['n']:,}", f"{row['ns_per_open']:,}", f"{row['ns_per_open'] / row['n']:.2f}"] for row in lines]
    return table(["C", "ns per open", "ns per open and mark of the capacity"], out)


def report():
    times, instructions, growth, memory = by_peer("times.csv"), by_peer("instructions.csv"), by_peer("growth.csv"), list(rows("memory.csv"))
    in_rows = rows_of(times, by_peer("rows.csv"), by_peer("rows_instructions.csv"))
    with open(os.path.join(FOLDER, "machine.txt")) as file:
        machine = file.read().strip()
    parts = [f"Machine: {machine}.\n", "### Times\n"] + [times_of(times, instructions, n) for n in sizes(times)]
    parts += ["### Instructions per operation\n", instructions_of(instructions), "### Branches missed per operation\n", missed_of(instructions)]
    parts += ["### Marks in rows\n", in_rows, "### Growth of the register\n", growth_of(growth)]
    parts += ["### Words written\n", memory_of(memory), "### Opening\n", opening_of(memory)]
    return "\n".join(parts)


def put(text, path):
    """Replaces what stands between the marker lines."""
    with open(path) as file:
        before, found, rest = file.read().partition(START + "\n")
    _, ended, after = rest.partition(END + "\n")
    if not (found and ended):
        sys.exit(f"report: {path} lacks the lines '{START}' and '{END}'")
    with open(path, "w") as file:
        file.write(before + found + "\n" + text + "\n" + ended + after)


def main():
    parser = argparse.ArgumentParser(description=__doc__)
    parser.add_argument("--into", metavar="FILE")
    into = parser.parse_args().into
    if into:
        put(report(), into)
    else:
        print(report(), end="")


main()
