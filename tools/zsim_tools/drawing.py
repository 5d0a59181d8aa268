"""Draws a machine: its cores with their caches, its banks, its controllers, the links between them, and the domains."""

import os

from . import derived
from .describe import accesses_of, caches_of, checked, controllers_of
from .errors import check_ending_of
from .plots import COLOURS, ENDINGS, save, style_of

# How many boxes stand side by side at most; and the size of a box, in a picture whose rows are 16 wide.
SIDE = 16
# So many have their whole names in their boxes.
FEW = 8
WIDE, HIGH = 0.86, 0.62
SIZE = (7.5, 5.0)


def draw(machine, out):
    """Draws a machine, and writes it as PNG, SVG or PDF. Returns the figure of matplotlib."""
    from matplotlib.figure import Figure

    check_ending_of(out, ENDINGS, "drawing")
    values = checked(machine).values
    with style_of(SIZE):
        figure = Figure(figsize=SIZE, dpi=150, layout="constrained")
        axes = figure.add_subplot()
        axes.set_axis_off()
        title = f"{os.path.basename(machine.name)}, {values['memory.size'] / 1024:g} KiB of memory"
        axes.set_title(title, fontsize="medium")
        draw_parts(axes, values)
        axes.margins(0.02)
        save(figure, out)
    return figure


def draw_parts(axes, values):
    """Draws the parts from above to below: cores, the links to every bank, banks, controllers, and the words beside."""
    banks, count = values["l2.banks"], values["controllers.count"]
    bottom, _ = draw_row(axes, 0.0, "core", [None] * values["cores"])
    words(axes, 0.0, cores_words(values))
    bar = bottom - 0.75
    reached = "every core reaches every bank"
    if "mesh.width" in values:
        reached += f"\nover a mesh of {values['mesh.width']} by {values['mesh.height']} nodes"
    draw_links(axes, bar, bottom, values["cores"], bar - 0.35, banks, reached)
    bottom, places = draw_row(axes, bar - 0.35 - HIGH, "bank", values["domains.banks"])
    words(axes, bar - 0.35 - HIGH, bank_words(values))
    top = bottom - 1.0
    _, ports = draw_row(axes, top - HIGH, "controller", values["domains.controllers"])
    words(axes, top - HIGH, controller_words(values))
    for bank, (x, y) in enumerate(places):
        port = ports[bank % count]
        axes.plot([x, port[0]], [y, port[1] + HIGH], color="0.6", linewidth=0.8, zorder=1)


def places_of(count, top):
    """Returns the lower left corners of boxes in rows, the middle of each row in the middle of the picture."""
    width = SIDE / min(count, SIDE)
    return [((number % SIDE) * width, top - (number // SIDE) * (HIGH + 0.12), width) for number in range(count)]


def draw_row(axes, top, name, domains):
    """Draws a box for each part of a kind, coloured by its domain. Returns the bottom, and the middle of each below."""
    from matplotlib.patches import Rectangle

    few = len(domains) <= FEW
    below = []
    for number, (domain, (x, y, width)) in enumerate(zip(domains, places_of(len(domains), top))):
        colour = "0.92" if domain is None else COLOURS[domain % len(COLOURS)]
        left = x + (1 - WIDE) / 2 * width
        box = Rectangle((left, y), WIDE * width, HIGH, facecolor=colour, edgecolor="0.3", linewidth=0.8, zorder=2)
        box.set_label(f"{name} {number}")
        axes.add_patch(box)
        text = f"{name} {number}" if few else str(number)
        text += "" if domain is None else f"\ndomain {domain}" if few else f"\nd{domain}"
        ink = "black" if domain is None or domain % len(COLOURS) in (2, 4) else "white"
        axes.text(x + width / 2, y + HIGH / 2, text, ha="center", va="center", fontsize="x-small", color=ink, zorder=3)
        below.append((x + width / 2, y))
    return min(y for _, y in below), below


def draw_links(axes, bar, cores_bottom, cores, banks_top, banks, reached):
    """Draws that every core reaches every bank: a bar, with a link from each core above and to each bank below."""
    axes.plot([0.4, SIDE - 0.4], [bar, bar], color="0.3", linewidth=3, solid_capstyle="butt", zorder=1)
    for count, end in ((cores, cores_bottom), (banks, banks_top)):
        for x, _, width in places_of(min(count, SIDE), 0.0):
            axes.plot([x + width / 2] * 2, [bar, end], color="0.6", linewidth=0.8, zorder=0)
    axes.text(SIDE + 0.3, bar, reached, va="center", fontsize="x-small")


def words(axes, y, lines):
    axes.text(SIDE + 0.3, y + HIGH, "\n".join(lines), va="top", fontsize="x-small")


def counted(number, name):
    domains = "" if name == "core" else " (dN: in domain N)" if number > FEW else ""
    return f"{number} {name}{'' if number == 1 else 's'}{domains}"


def cores_words(values):
    accesses = {access.name: access.cycles for access in accesses_of(values)}
    lines = [counted(values["cores"], "core")]
    lines += [f"{name}: {kib:g} KiB, {sets} sets of {ways} ways" for name, _, sets, ways, kib in caches_of(values)[:-1]]
    hits = [f"{name}: {cycles} cycles" for name, cycles in accesses.items() if name.endswith(("L1 hit", "L1I hit"))]
    return lines + hits


def bank_words(values):
    _, _, sets, ways, kib = caches_of(values)[-1]
    look_up = values["l1.latency"] + values["l2.latency"]
    return [
        counted(values["l2.banks"], "bank"),
        f"L2: {kib:g} KiB, {sets} sets of {ways} ways",
        f"L2 hit, upgrade: {look_up} cycles",
        f"remote: {look_up + values['l2.remote']} cycles",
        f"{derived.LINE / values['l2.occupancy']:.4g} bytes a cycle each",
    ]


def controller_words(values):
    clean, dirty = (access.cycles for access in accesses_of(values) if access.name.startswith("miss"))
    return [
        counted(values["controllers.count"], "controller"),
        f"miss, clean victim: {clean} cycles",
        f"miss, dirty victim: {dirty} cycles",
        *(["(and those on the mesh)"] if "mesh.width" in values else []),
        f"{controllers_of(values)[0][3]:.4g} bytes a cycle each",
    ]
