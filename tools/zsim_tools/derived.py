"""Numbers that follow from the counters of a report. `docs/tools.md` has the formulas.

A quotient with a divisor of 0 is no number (NaN).
"""

from math import isnan, nan


# The derived numbers of a core, or of all cores, that are accesses per thousand instructions.
PER_THOUSAND = ("fetches_pki", "hits_pki", "upgrades_pki", "l2hits_pki", "l1_mpki", "l2_mpki")


def quotient(part, whole):
    return part / whole if whole else nan


def of_core(core):
    """Returns the derived numbers of a core's counters, or of the sums over all cores."""
    thousands = core["instructions"] / 1000
    fetches = {"fetches_pki": quotient(core["fetches"], thousands)} if "fetches" in core else {}
    return {
        "cpi": quotient(core["cycles"], core["instructions"]),
        "waiting": quotient(core["delay"], core["cycles"]),
        **fetches,
        "hits_pki": quotient(core["hits"], thousands),
        "upgrades_pki": quotient(core["upgrades"], thousands),
        "l2hits_pki": quotient(core["l2hits"], thousands),
        "l1_mpki": quotient(core["l2hits"] + core["misses"], thousands),
        "l2_mpki": quotient(core["misses"], thousands),
    }


def of_component(component, cycles, occupancy):
    """Returns the derived numbers of a bank, a controller or a link, in a run of so many cycles.

    Without an occupancy there is no busy share. An event keeps its component busy for the occupancy, and no two
    overlap; those of the last interval may end after the last core's clock, at the cycle `free`.
    """
    numbers = {"wait": quotient(component["waited"], component["events"])}
    if occupancy is not None:
        numbers["busy"] = quotient(component["events"] * occupancy, max(cycles, component["free"]))
    return numbers


def bank_occupancy(machine):
    return machine.number("l2.occupancy") if machine else None


def controller_occupancy(machine):
    return machine.number("controllers.occupancy") if machine else None


def link_occupancy(machine):
    return machine.number("mesh.occupancy") if machine else None


def links_of(machine):
    """Returns how many links the mesh of a machine has: four of each node, and 0 without a mesh."""
    return 4 * (machine.number("mesh.width") or 0) * (machine.number("mesh.height") or 0)


def components_of(report):
    """Returns each kind of components of a report, with the components and their occupancy. Without a mesh there are no
    links, and no kind of them."""
    kinds = [
        ("bank", report.bank_list, bank_occupancy(report.machine)),
        ("controller", report.controller_list, controller_occupancy(report.machine)),
    ]
    return kinds + ([("link", report.link_list, link_occupancy(report.machine))] if report.link_list else [])


def totals(report):
    """Returns the sums over the cores, the banks, the controllers and the links, by name."""
    cores = [core.counters for core in report.core_list]
    # (the column `cycles` is the greatest clock, as in the report)
    names = [name for name in (cores[0] if cores else ()) if name != "cycles"]
    sums = {name: sum([core[name] for core in cores]) for name in names}
    for kind, components, _ in components_of(report):
        for name in ("events", "waited"):
            sums[f"{kind}_{name}"] = sum([component.counters[name] for component in components])
    return sums


def spread(values):
    """Returns the difference between the greatest and the least, as a share of the mean."""
    values = list(values)
    if any(map(isnan, values)):
        return nan
    mean = sum(values) / len(values)
    return (max(values) - min(values)) / mean if mean else 0.0


LINE = 64


def kib_of(machine):
    """Returns the sizes of the caches of a machine, in KiB, by name. That of the L2 is of all banks together."""
    sizes = {}
    for cache in ("l1", "l1i", "l2"):
        sets, ways = machine.number(f"{cache}.sets"), machine.number(f"{cache}.ways")
        if sets is not None and ways is not None:
            sizes[f"{cache}_kib"] = sets * ways * LINE / 1024
    return sizes


def of_run(report, sums):
    """Returns the derived numbers of a whole run: of its `totals`, the spreads, the means and maxima; of its machine and
    its time, where they are known."""
    beside = kib_of(report.machine) if report.machine else {}
    if report.seconds is not None:
        by_second = quotient(report.summary["instructions"], report.seconds)
        beside |= {"seconds": report.seconds, "instructions_per_second": by_second}
    return {**of_cores(report, sums), **beside}


def of_cores(report, sums):
    """Returns the derived numbers that follow from the counters of a report."""
    if report.brief:
        one = report.summary["cores"] == 1
        return {"cpi": quotient(report.summary["cycles"], report.summary["instructions"])} if one else {}
    cores = [core.counters for core in report.core_list]
    numbers = of_core({**sums, "cycles": sum(core["cycles"] for core in cores)})
    numbers["instructions_spread"] = spread(core["instructions"] for core in cores)
    numbers["cycles_spread"] = spread(core["cycles"] for core in cores)
    numbers["cpi_spread"] = spread(of_core(core)["cpi"] for core in cores)
    for kind, components, occupancy in components_of(report):
        numbers |= of_kind(report, kind, components, occupancy, sums)
    return numbers


def of_kind(report, kind, components, occupancy, sums):
    """Returns the derived numbers of all components of a kind."""
    numbers = {f"{kind}_wait": quotient(sums[f"{kind}_waited"], sums[f"{kind}_events"])}
    if occupancy is not None:
        cycles = report.summary["cycles"]
        busy = [of_component(component.counters, cycles, occupancy)["busy"] for component in components]
        numbers[f"{kind}_busy"] = sum(busy) / len(busy)
        numbers[f"{kind}_busiest"] = max(busy)
    return numbers
