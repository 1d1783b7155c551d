"""The figures as tables in Markdown."""
from statistics import median

from figures import CALLS, HEADLINE, OTHERS, Figure

SERVERS = ("poad", "omniORB")
WAY = {"map": "an object of the map", "default": "a default servant", "activator": "one that an activator brought"}


def row(*cells):
    return f"| {' | '.join(map(str, cells))} |"


def table(heads, rows):
    return "\n".join([row(*heads), "|" + "---|" * len(heads), *rows])


def middle(figures):
    """The medians of some figures."""
    return Figure(*map(median, zip(*figures)))


def ratio(figures, call, cell, field):
    """The median of poad's figures by omniORB's of the same turn."""
    pairs = zip(*(figures[server, call, cell] for server in SERVERS))
    return median(getattr(ours, field) / max(getattr(theirs, field), 0.01) for ours, theirs in pairs)


def name_of(call):
    operation, way = call
    return f"`{operation}`, {WAY[way]}"


def cells_of(call, figures):
    """The figures of a call, a row a cell."""
    heads = ["Depth", "Connections", "Calls a second", "Ratio", "p50, us", "p99, us", "Processor time a call, us", "Ratio"]
    rows = []
    for depth, connections in sorted(HEADLINE + OTHERS):
        cell = depth, connections
        ours, theirs = (middle(figures[server, call, cell]) for server in SERVERS)
        rows.append(
            row(
                depth,
                f"**{connections}**" if cell in HEADLINE else connections,
                f"{ours.rate:,.0f} · {theirs.rate:,.0f}",
                f"{ratio(figures, call, cell, 'rate'):.2f}",
                f"{ours.p50:.0f} · {theirs.p50:.0f}",
                f"{ours.p99:.0f} · {theirs.p99:.0f}",
                f"{ours.processor:.1f} · {theirs.processor:.1f}",
                f"{ratio(figures, call, cell, 'processor'):.2f}",
            )
        )
    return table(heads, rows)


def ratios(figures):
    """The ratios of all calls."""
    heads = ["Ratios of the rate (of the processor time)"]
    heads += [f"{connections} x {depth}" for depth, connections in HEADLINE]
    rows = []
    for call in CALLS:
        both = ((ratio(figures, call, cell, field) for field in ("rate", "processor")) for cell in HEADLINE)
        rows.append(row(name_of(call), *(f"{rate:.2f} ({taken:.2f})" for rate, taken in both)))
    return table(heads, rows)


def megabytes(octets):
    return f"{octets / 1e6:.1f} MB"


def lives(by_server):
    """What the servers take beside their calls."""
    both = [by_server[server] for server in SERVERS]
    rows = [
        row("Start to first answer", *(f"{life.first_answer * 1e3:.0f} ms" for life in both)),
        row("Idle, with 64 clients that ask nothing, of a processor", *(f"{life.idle:.2%}" for life in both)),
        row("Memory at the start", *(megabytes(life.before) for life in both)),
        row("Calls then made, `add` by 4 connections, 16 at a time", *(f"{life.calls:,}" for life in both)),
        row("Memory behind them", *(megabytes(life.after) for life in both)),
        row("Memory a call", *(f"{(life.after - life.before) / life.calls:.0f} bytes" for life in both)),
        row(
            "Processor time a call, the first quarter and the last",
            *(f"{life.young:.1f} us, {life.old:.1f} us" for life in both),
        ),
    ]
    return table(["What", *SERVERS], rows)
