"""Tables of results: a long one for each workload, and short ones of all workloads for docs/BENCHMARKS.md.

A result is a dictionary: the peer's promise, the medians of its timings, its counts, or why it was skipped. Results are
dictionaries of workloads, and of peers in these.
"""

MIB = 1 << 20
HEADS = (
    "peer",
    "promise of osync",
    "seconds",
    "us a point",
    "processor s",
    "peak MiB",
    "syncs",
    "writes",
    "MiB written",
    "bytes per byte",
    "with 1 ms",
    "with 10 ms",
)


def priced(result, milliseconds):
    """The seconds of a run, had each sync taken so many milliseconds more."""
    return result["seconds"] + result["syncs"] * milliseconds / 1000


def cells_of(name, result, job):
    """A row of the long table."""
    if "skipped" in result:
        return (name, f"skipped: {result['skipped']}")
    cells = (name, result["promise"], f"{result['seconds']:.3f}", f"{1e6 * result['seconds'] / job['points']:.0f}")
    cells += (f"{result['processor']:.3f}", f"{result['memory'] / 1024:.1f}")
    if "syncs" not in result:
        return cells
    written = result["bytes"]
    cells += (result["syncs"], result["writes"], f"{written / MIB:.2f}", f"{written / job['user_bytes']:.2f}")
    return (*cells, f"{priced(result, 1):.3f}", f"{priced(result, 10):.3f}")


def aligned(rows):
    """Rows as lines of text: the first two cells of each begin, and the others end, where those of its column do."""
    whole = [row for row in rows if len(row) > 2]
    widths = [max(len(row[place]) for row in whole if place < len(row)) for place in range(len(HEADS))]
    for row in rows:
        cells = [cell.ljust(width) if place < 2 else cell.rjust(width) for place, (cell, width) in enumerate(zip(row, widths))]
        yield "  ".join(["", *cells]).rstrip()


def long_table(name, results):
    """The table of one workload, as text."""
    job, rows = results["job"], [HEADS]
    for peer, result in results["peers"].items():
        rows.append(tuple(str(cell) for cell in cells_of(peer, result, job)))
    head = f"{name}: {job['units']} {job['about']}: {job['points']} sync points, {job['user_bytes']} bytes"
    return "\n".join([head, *aligned(rows)]) + "\n"


def rounded(number):
    """A number with two digits that count, or with more before the point and none behind it."""
    if number >= 10:
        return f"{number:.0f}"
    return f"{number:.1f}" if number >= 1 else f"{number:.2f}"


def counts_cell(result):
    """Syncs, writes, and MiB written."""
    return f"{result['syncs']}/{result['writes']}/{rounded(result['bytes'] / MIB)}"


def seconds_cell(result):
    """Seconds, as they were, and with 1 and 10 ms for each sync."""
    return "/".join(rounded(priced(result, milliseconds)) for milliseconds in (0, 1, 10))


def effort_cell(result):
    """Processor seconds, and peak memory in MiB."""
    return f"{rounded(result['processor'])}/{rounded(result['memory'] / 1024)}"


SHORT = (
    ("syncs/writes/MiB written", counts_cell),
    ("seconds/with 1 ms/with 10 ms more for each sync", seconds_cell),
    ("processor seconds/peak MiB", effort_cell),
)


def short_tables(results, facts):
    """What all workloads came to, in Markdown: a row for each, and a column for each peer, below a line on the machine."""
    names = list(dict.fromkeys(peer for one in results.values() for peer in one["peers"]))
    where = f"{facts['processors']} processors ({facts['processor']}), Linux {facts['system']}, load {facts['load']:.1f}"
    tables = [f"Medians of {facts['runs']} runs, {facts['date'][:10]}: {where}.\n"]
    for head, cell in SHORT:
        lines = ["| " + " | ".join([head, *names]) + " |", "|---" * (len(names) + 1) + "|"]
        for workload, one in results.items():
            shown = [one["peers"].get(name, {}) for name in names]
            cells = [cell(result) if "syncs" in result else "" for result in shown]
            lines.append("| " + " | ".join([workload, *cells]) + " |")
        tables.append("\n".join(lines) + "\n")
    return "\n".join(tables)
