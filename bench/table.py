"""The table of a run: one line for each family and solver, in columns that line up."""
import math
import statistics

HEAD = ("family", "known by", "solver", "answered", "wrong", "not answered", "median s", "peak MB",
        "slowest by size, s", "growth")
TELLING = 0.1  # seconds below which a time is that of starting a process


def is_wrong(result):
    known = result.expected.removeprefix("peers:")
    return result.answer in ("sat", "unsat") and bool(known) and result.answer != known


def is_answered(result):
    return result.answer in ("sat", "unsat")


def by_size(results):
    """For each size the slowest answered run (None where there is none) and whether all runs were answered."""
    for size in sorted({r.size for r in results}):
        here = [r for r in results if r.size == size]
        yield size, max((r.seconds for r in here if is_answered(r)), default=None), all(map(is_answered, here))


def growth(points):
    """The exponent of a power of the size, between the first and the last size at which all runs were answered."""
    whole = [(size, seconds) for size, seconds, is_whole in points if is_whole]
    if len(whole) < 2:
        return ""
    (size, seconds), (last, later) = whole[0], whole[-1]
    return f"n^{math.log(later / seconds) / math.log(last / size):.1f}" if later > TELLING else "none seen"


def cell(size, seconds, is_whole):
    return f"{size}: " + ("-" if seconds is None else f"{seconds:.2f}" + ("" if is_whole else "+"))


def left_out(results):
    reasons = [r.answer for r in results if not is_answered(r)]
    return ", ".join(f"{reasons.count(reason)} {reason}" for reason in sorted(set(reasons)))


def line(family, solver, results, floor):
    answered = [r for r in results if is_answered(r)]
    peak = max((r.megabytes for r in answered), default=0)
    points = list(by_size(results))
    return (family,
            "construction" if all(r.expected in ("sat", "unsat") for r in results) else "most peers",
            solver,
            f"{len(answered)}/{len(results)}",
            str(sum(map(is_wrong, results))),
            left_out(results),
            f"{statistics.median(r.seconds for r in answered):.3f}" if answered else "",
            "" if not answered else f"{peak:.0f}" if peak > 1.1 * floor else f"<{floor:.0f}",
            "  ".join(cell(*point) for point in points),
            growth(points))


def write(results, floor):
    rows = [HEAD]
    for family in dict.fromkeys(r.family for r in results):
        for solver in dict.fromkeys(r.solver for r in results):
            own = [r for r in results if (r.family, r.solver) == (family, solver)]
            if own:
                rows.append(line(family, solver, own, floor))
    widths = [max(len(row[i]) for row in rows) for i in range(len(HEAD))]
    for row in rows:
        print("  ".join(cell.ljust(width) for cell, width in zip(row, widths)).rstrip())
    for r in filter(is_wrong, results):
        print(f"WRONG: {r.solver} answers {r.answer} to {r.family} {r.size}, instance {r.instance}; "
              f"known is {r.expected}")
