"""What the numbers of a machine description come to: sizes, cycles of each kind of access, bandwidths, domains.

The times are those of docs/time-and-weave.md where nothing waits. On a mesh those of an access are without the links that
it crosses, which stand apart: they go by the nodes of its core, its bank and its controller.
"""

from typing import NamedTuple

from . import derived
from .checks import refusal_of
from .errors import ToolError
from .meanings import explain
from .texts import console, print_json, print_table

LINE = derived.LINE
# An interval of fewer misses than so many makes components busy in intervals to come.
MISSES = 10


class Access(NamedTuple):
    """A kind of access: how many cycles it takes where nothing waits, how many banks and controllers it goes through,
    and how many cycles it keeps its bank and its controller busy."""

    name: str
    cycles: int
    hops: int
    bank: int
    controller: int


def checked(machine):
    """Returns the machine, or raises ToolError, which says in words why zsim would refuse it."""
    refusal = refusal_of(machine.text)
    if refusal:
        raise ToolError(f"{machine.name}: {refusal.line}: {explain(refusal.line, machine.text)}")
    return machine


def accesses_of(values):
    """Returns each kind of access. The first cache of a fetch is the L1I."""
    found = accesses_by(values, "l1", "")
    if "l1i.latency" in values:
        fetches = accesses_by(values, "l1i", "fetch: ")
        found += [access for access in fetches if "upgrade" not in access.name and "remote" not in access.name]
    return found


def accesses_by(values, cache, before):
    first, look_up, remote = values[f"{cache}.latency"], values["l2.latency"], values["l2.remote"]
    # (where rows are open, the time without waiting is that of a read in the open row)
    read = values.get("dram.hit", values["controllers.read"])
    write, fill = values["controllers.write"], values["l2.fill"]
    bank, controller = values["l2.occupancy"], values["controllers.occupancy"]
    name = cache.upper()
    return [
        Access(f"{before}{name} hit", first, 0, 0, 0),
        Access(f"{before}upgrade, no other core has the line", first + look_up, 1, bank, 0),
        Access(f"{before}upgrade, remote: others have it", first + look_up + remote, 1, bank, 0),
        Access(f"{before}L2 hit", first + look_up, 1, bank, 0),
        Access(f"{before}L2 hit, remote: another core changes its copy", first + look_up + remote, 1, bank, 0),
        Access(f"{before}miss, clean victim", first + look_up + read + fill, 2, 2 * bank, controller),
        Access(
            f"{before}miss, dirty victim", first + look_up + max(read, write) + fill, 2, 2 * bank, 2 * controller
        ),
    ]


def caches_of(values):
    """Returns a row for each cache: name, where it is, sets, ways, KiB."""
    rows = []
    for name, where in (
        ("l1", "each core, data"),
        ("l1i", "each core, instructions"),
        ("l2", f"{values['l2.banks']} banks in all"),
    ):
        if f"{name}.sets" in values:
            sets, ways = values[f"{name}.sets"], values[f"{name}.ways"]
            rows.append((name.upper(), where, sets, ways, sets * ways * LINE / 1024))
    return rows


class Way(NamedTuple):
    """A way over the mesh: between what it leads, and how many links it has at the least, in the mean and at the most."""

    name: str
    least: int
    mean: float
    most: int


def nodes_of(values):
    """Returns at which nodes of the mesh the cores, the banks and the controllers are, each as x and y."""
    width, nodes = values["mesh.width"], values["mesh.width"] * values["mesh.height"]

    def places(count, node):
        return [(node(number % nodes) % width, node(number % nodes) // width) for number in range(count)]

    return (
        places(values["cores"], lambda number: number),
        places(values["l2.banks"], lambda number: number),
        places(values["controllers.count"], lambda number: nodes - 1 - number),
    )


def ways_of(values):
    """Returns the ways over the mesh, where there is one: from every core to every bank, and from each bank to its
    controller. Each is gone back, too."""
    if "mesh.width" not in values:
        return []
    cores, banks, controllers = nodes_of(values)

    def way(name, pairs):
        links = [abs(one[0] - other[0]) + abs(one[1] - other[1]) for one, other in pairs]
        return Way(name, min(links), sum(links) / len(links), max(links))

    return [
        way("core to bank", [(core, bank) for core in cores for bank in banks]),
        way("bank to controller", [(bank, controllers[b % len(controllers)]) for b, bank in enumerate(banks)]),
    ]


def longest_miss(values):
    """Returns how many cycles a miss takes at most, where nothing waits."""
    return accesses_of(values)[-1].cycles + sum(2 * way.most * values["mesh.hop"] for way in ways_of(values))


def mesh_of(values):
    """Returns what a mesh comes to, where there is one, in words and numbers."""
    if "mesh.width" not in values:
        return []
    return [
        ["mesh", f"{values['mesh.width']} by {values['mesh.height']} nodes, {values['mesh.hop']} cycles a link"],
        ["bytes a cycle of a link", shown(LINE / values["mesh.occupancy"])],
    ]


def pipeline_of(values):
    """Returns what the pipeline of a core comes to, where the cores have one: in words, and cycles."""
    if "pipe.mul" not in values:
        return []
    return [
        ["a product is ready after", f"{values['pipe.mul']} cycles"],
        ["a quotient is ready after", f"{values['pipe.div']} cycles"],
        ["a wrong prediction costs", f"{values['pipe.penalty']} cycles; {values['pipe.entries']} counters predict"],
    ]


def rows_of(values):
    """Returns what the open rows of the controllers come to, where they have them: in words, cycles and bytes."""
    if "dram.hit" not in values:
        return []
    row = LINE * values["dram.row_lines"]
    return [
        ["a read in the open row takes", f"{values['dram.hit']} cycles, and a row has {row} bytes"],
        ["a read where no row is open", f"{values['dram.closed']} cycles, in each of {values['dram.banks']} banks of memory"],
        ["a read where another row is open", f"{values['dram.conflict']} cycles"],
    ]


def controllers_of(values):
    """Returns a row for each controller: its number, its domain, its banks, its bytes a cycle."""
    count, bytes_a_cycle = values["controllers.count"], LINE / values["controllers.occupancy"]
    return [
        (number, values["domains.controllers"][number], list(range(number, values["l2.banks"], count)), bytes_a_cycle)
        for number in range(count)
    ]


def notes_of(values):
    """Returns what is worth a second look, though zsim takes it (docs/machine-description.md)."""
    notes = []
    miss = longest_miss(values)
    if values["interval"] < MISSES * miss:
        notes.append(f"an interval of {values['interval']} cycles is shorter than {MISSES} misses of {miss} cycles")
    idle = [number for number, _, banks, _ in controllers_of(values) if not banks]
    if idle:
        notes.append(f"no bank goes through the controllers {', '.join(map(str, idle))}")
    if values["cores"] > 1:
        for what, number in (("set of the L2", values["l2.sets"]), ("bank", values["l2.banks"])):
            if number > 1 and values["memory.stack"] % (LINE * number) == 0:
                notes.append(f"the stacks of all cores begin in one {what}: have memory.stack a line more or less")
                break
    used = {*values["domains.banks"], *values["domains.controllers"]}
    if len(used) < values["domains.count"]:
        notes.append(f"{values['domains.count'] - len(used)} of the {values['domains.count']} domains have no component")
    return notes


def description_of(machine):
    """Returns all of it as one value, for JSON."""
    values = machine.values
    return {
        "machine": machine.name,
        "caches": [dict(zip(("name", "where", "sets", "ways", "kib"), row)) for row in caches_of(values)],
        "accesses": [access._asdict() for access in accesses_of(values)],
        "controllers": [
            dict(zip(("controller", "domain", "banks", "bytes_per_cycle"), row)) for row in controllers_of(values)
        ],
        "mesh": {key.partition(".")[2]: value for key, value in values.items() if key.startswith("mesh.")} or None,
        "ways": [way._asdict() for way in ways_of(values)],
        "rows": {key.partition(".")[2]: value for key, value in values.items() if key.startswith("dram.")} or None,
        "pipeline": {key.partition(".")[2]: value for key, value in values.items() if key.startswith("pipe.")} or None,
        "notes": notes_of(values),
    }


def describe_json(machine):
    print_json(description_of(checked(machine)))


def describe_tables(machine):
    """Prints what a machine description comes to."""
    values = checked(machine).values
    out = console()
    print_table(out, machine.name, ["machine", ""], general_of(values))
    ways = ways_of(values)
    cycles = "cycles without links" if ways else "cycles"
    for headings, rows in (
        (["cache", "of", "sets", "ways", "KiB"], caches_of(values)),
        (["access", cycles, "hops", "bank busy", "controller busy"], accesses_of(values)),
        (["controller", "domain", "banks", "bytes a cycle"], controllers_of(values)),
        *([(["links on the way", "least", "mean", "most"], ways)] if ways else []),
    ):
        out.print()
        print_table(out, "", headings, [[shown(value) for value in row] for row in rows])
    for note in notes_of(values):
        out.print(f"\nNote: {note}.", markup=False)


def general_of(values):
    whole = LINE / values["controllers.occupancy"] * sum(bool(banks) for _, _, banks, _ in controllers_of(values))
    return [
        ["cores", str(values["cores"])],
        ["memory", f"{values['memory.size'] / 1024:g} KiB from {values['memory.base']:#x} on"],
        ["stack of a core", f"{values['memory.stack']} bytes"],
        ["intervals", f"{values['intervals']} of {values['interval']} cycles"],
        ["bytes a cycle of a bank", shown(LINE / values["l2.occupancy"])],
        ["bytes a cycle of memory", shown(whole)],
        ["domains", str(values["domains.count"])],
        *mesh_of(values),
        *rows_of(values),
        *pipeline_of(values),
    ]


def shown(value):
    """Returns a value as a table has it."""
    if isinstance(value, list):
        return ", ".join(map(str, value)) or "none"
    return f"{value:.4g}" if isinstance(value, float) else str(value)
