"""What the columns of tables are called in plots, with their units."""

import re

KEYS = {
    "cores": "cores",
    "interval": "length of an interval (cycles)",
    "intervals": "limit of intervals",
    "memory.base": "first address of memory",
    "memory.size": "memory (bytes)",
    "memory.stack": "stack of a core (bytes)",
    "l1.sets": "sets of the L1",
    "l1.ways": "ways of the L1 (lines in a set)",
    "l1.latency": "time of an L1 hit (cycles)",
    "l1i.sets": "sets of the L1I",
    "l1i.ways": "ways of the L1I (lines in a set)",
    "l1i.latency": "time of an L1I hit (cycles)",
    "l2.banks": "banks of the L2",
    "l2.sets": "sets of the L2, in all banks",
    "l2.ways": "ways of the L2 (lines in a set)",
    "l2.latency": "time of an L2 look-up (cycles)",
    "l2.remote": "time to change another core's copy (cycles)",
    "l2.fill": "time of a fill of the L2 (cycles)",
    "l2.occupancy": "occupancy of a bank (cycles per event)",
    "controllers.count": "memory controllers",
    "controllers.read": "time of a read of memory (cycles)",
    "controllers.write": "time of a write to memory (cycles)",
    "controllers.occupancy": "occupancy of a controller (cycles per event)",
    "domains.count": "domains",
    "mesh.width": "nodes of the mesh along x",
    "mesh.height": "nodes of the mesh along y",
    "mesh.hop": "time of a hop (cycles)",
    "mesh.occupancy": "occupancy of a link (cycles per event)",
    "dram.banks": "banks of a controller's memory",
    "dram.row_lines": "lines of a row of memory",
    "dram.hit": "time of a read in the open row (cycles)",
    "dram.closed": "time of a read where no row is open (cycles)",
    "dram.conflict": "time of a read where another row is open (cycles)",
    "pipe.mul": "time of a product (cycles)",
    "pipe.div": "time of a quotient (cycles)",
    "pipe.entries": "counters that predict branches",
    "pipe.penalty": "cost of a wrong prediction (cycles)",
}

NUMBERS = {
    "intervals_run": "intervals",
    "instructions": "instructions",
    "cycles": "cycles",
    "accesses": "accesses",
    "events": "events",
    "delay": "delay (cycles)",
    "loads": "loads",
    "stores": "stores",
    "atomics": "atomics",
    "fetches": "fetches",
    "hits": "hits in the L1",
    "upgrades": "upgrades",
    "l2hits": "hits in the L2",
    "misses": "misses in the L2",
    "waited": "waiting of events (cycles)",
    "free": "free from (cycle)",
    "l1_kib": "size of the L1 (KiB)",
    "l1i_kib": "size of the L1I (KiB)",
    "l2_kib": "size of the L2 (KiB)",
    "seconds": "time of the simulation (seconds)",
    "instructions_per_second": "instructions per second of the simulation",
    "speedup": "speed-up",
    "cpi": "cycles per instruction",
    "waiting": "waiting (share of the cycles)",
    "fetches_pki": "fetches per 1000 instructions",
    "hits_pki": "hits in the L1 per 1000 instructions",
    "upgrades_pki": "upgrades per 1000 instructions",
    "l2hits_pki": "hits in the L2 per 1000 instructions",
    "l1_mpki": "misses in the L1 per 1000 instructions",
    "l2_mpki": "misses in the L2 per 1000 instructions",
    "instructions_spread": "spread of the cores' instructions (share of the mean)",
    "cycles_spread": "spread of the cores' cycles (share of the mean)",
    "cpi_spread": "spread of the cores' CPI (share of the mean)",
}

# Where cores fetch, these are of both first caches together: the report does not tell which of them an access came to.
FETCHING = {name: NUMBERS[name].replace("the L1", "the L1 and L1I") for name in ("hits", "hits_pki", "l1_mpki")}

COMPONENTS = {
    "events": "events of the {kinds}",
    "waited": "waiting for the {kinds} (cycles)",
    "wait": "waiting for the {kinds} (cycles per event)",
    "busy": "busy share of the {kinds}, in the mean",
    "busiest": "busy share of the busiest {kind}",
}

KINDS = {"bank": "banks", "controller": "controllers", "link": "links"}


def label_of(column, fetching=False):
    """Returns the label of a column, with its unit. A column that is not known here is its own label.

    `fetching` says that the cores fetch their instructions: the table has the column `fetches`.
    """
    numbers = {**NUMBERS, **FETCHING} if fetching else NUMBERS
    if column in KEYS:
        return KEYS[column]
    if column in numbers:
        return numbers[column]
    for kind, kinds in KINDS.items():
        for name, text in COMPONENTS.items():
            if column == f"{kind}_{name}":
                return text.format(kind=kind, kinds=kinds)
    part = re.fullmatch("(core|bank|controller|link)([0-9]+)_(.+)", column)
    if part and part[3] in numbers:
        return f"{part[1]} {part[2]}: {numbers[part[3]]}"
    return column


def value_text(value):
    """Returns a value of a column as axes, legends, maps and titles have it."""
    if isinstance(value, str):
        return value
    return str(int(value)) if float(value).is_integer() else f"{float(value):.4g}"
