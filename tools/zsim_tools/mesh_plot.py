"""Draws the mesh of a machine with what a report says of its links: the darker a link, the more was waited for it."""

import os

from .derived import of_component
from .describe import checked, nodes_of
from .errors import ToolError, check_ending_of
from .labels import COMPONENTS
from .plots import ENDINGS, INCHES, new_figure, save, style_of

# Where a link leads from its node, by its number there.
DIRECTIONS = ((1, 0), (-1, 0), (0, -1), (0, 1))
# The side of a node's box and how far the two links between neighbours lie apart, where nodes are 1 apart.
BOX, APART = 0.56, 0.16
# The more, the darker, also in grey: of a map of matplotlib, from where it stands out from white. Links without events are
# thin.
COLOURS, LIGHTEST = "YlOrRd", 0.25
PLAIN = "0.8"
# Up to so many nodes in a row the links have their numbers, and the parts of a node their names; there are the widths of
# links and the sizes of their heads, for these and for more. Up to so many parts of a kind in a node have their numbers.
NUMBERED = 4
LINKS = ((2.5, 9), (1.6, 6))
FEW = 2
NAMES = {"core": ("core ", "c"), "bank": ("bank ", "b"), "controller": ("mem ", "m")}
NOTE = "c: core, b: bank, m: memory controller"


def plot_mesh(report, machine, out, y="waited", title=None, size=INCHES):
    """Draws the mesh of a machine with a number of each link of a report: `waited`, `wait`, `events` or `busy`. Returns the
    figure of matplotlib."""
    check_ending_of(out, ENDINGS, "plot")
    if y not in COMPONENTS or y == "busiest":
        raise ToolError(f"--y {y}: a mesh is drawn with waited, wait, events or busy")
    values = checked(machine).values
    if "mesh.width" not in values:
        raise ToolError(f"{machine.name}: has no mesh to draw")
    if not report.link_list:
        raise ToolError(f"{report.name}: has no links; a brief report tells nothing of them")
    numbers = numbers_of(report, values, y)
    with style_of(size):
        figure, axes = new_figure(size)
        axes.set_title(title or f"{named(report.name)} on {named(machine.name)}", fontsize="medium")
        axes.set_axis_off()
        axes.set_aspect("equal")
        axes.set_xlim(-0.5, values["mesh.width"] - 0.5)
        axes.set_ylim(values["mesh.height"] - 0.5, -0.5)  # (y grows downward)
        colours = scale_of(numbers)
        draw_nodes(axes, values)
        draw_links(axes, values, numbers, colours)
        bar = figure.colorbar(colours, ax=axes, shrink=0.8)
        bar.set_label(COMPONENTS[y].format(kind="link", kinds="links").partition(", in")[0])
        save(figure, out)
    return figure


def named(path):
    return os.path.basename(path)


def numbers_of(report, values, y):
    """Returns the number of each link; None where it has no event."""
    cycles, occupancy = report.summary["cycles"], values["mesh.occupancy"]
    links = [{**link.counters, **of_component(link.counters, cycles, occupancy)} for link in report.link_list]
    return [link[y] if link["events"] else None for link in links]


def scale_of(numbers):
    """Returns the colours of numbers from 0 to the greatest."""
    from matplotlib import colormaps
    from matplotlib.cm import ScalarMappable
    from matplotlib.colors import ListedColormap, Normalize

    greatest = max([number for number in numbers if number is not None], default=0)
    colours = [colormaps[COLOURS](LIGHTEST + (1 - LIGHTEST) * step / 255) for step in range(256)]
    return ScalarMappable(Normalize(0, greatest or 1), ListedColormap(colours))


def draw_nodes(axes, values):
    """Draws a box for each node, with the cores, the banks and the controllers that are there."""
    from matplotlib.patches import Rectangle

    places = dict(zip(NAMES, nodes_of(values)))
    is_small = max(values["mesh.width"], values["mesh.height"]) > NUMBERED
    letters, spacing = ("xx-small", 0.95) if is_small else ("x-small", 1.2)
    for y in range(values["mesh.height"]):
        for x in range(values["mesh.width"]):
            axes.add_patch(Rectangle((x - BOX / 2, y - BOX / 2), BOX, BOX, facecolor="0.95", edgecolor="0.3"))
            there = [(kind, [n for n, place in enumerate(at) if place == (x, y)]) for kind, at in places.items()]
            lines = [told(NAMES[kind][is_small], numbers) for kind, numbers in there if numbers]
            axes.text(x, y, "\n".join(lines), ha="center", va="center", fontsize=letters, linespacing=spacing)
    if is_small:
        axes.text(0.5, -0.01, NOTE, transform=axes.transAxes, ha="center", va="top", fontsize="x-small")


def told(name, numbers):
    """Returns which parts of a kind a node has, in a few letters."""
    return f"{name}{','.join(map(str, numbers))}" if len(numbers) <= FEW else f"{len(numbers)} {name.replace(' ', 's')}"


def draw_links(axes, values, numbers, colours):
    """Draws an arrow for each link that leads to another node, on its right-hand side."""
    from matplotlib.patches import FancyArrowPatch

    width, height = values["mesh.width"], values["mesh.height"]
    for link, number in enumerate(numbers):
        (x, y), (right, down) = (link // 4 % width, link // 4 // width), DIRECTIONS[link % 4]
        if not (0 <= x + right < width and 0 <= y + down < height):
            continue
        aside = (-down * APART / 2, right * APART / 2)
        begin, end = ((x + right * part + aside[0], y + down * part + aside[1]) for part in (BOX / 2, 1 - BOX / 2))
        has_events = number is not None
        thick, head = LINKS[max(width, height) > NUMBERED]
        arrow = FancyArrowPatch(
            begin,
            end,
            arrowstyle="-|>",
            mutation_scale=head,
            linewidth=thick if has_events else 0.8,
            color=colours.to_rgba(number) if has_events else PLAIN,
            shrinkA=0,
            shrinkB=0,
            zorder=2,
        )
        arrow.set_label(f"link {link}")
        axes.add_patch(arrow)
        if has_events and max(width, height) <= NUMBERED:
            number_beside(axes, begin, end, aside, number)


def number_beside(axes, begin, end, aside, number):
    """Writes the number of a link beside its arrow, away from the one that leads back."""
    x, y = (begin[0] + end[0]) / 2 + 0.5 * aside[0], (begin[1] + end[1]) / 2 + 0.5 * aside[1]
    across = "center" if aside[0] == 0 else "left" if aside[0] > 0 else "right"
    along = "center" if aside[1] == 0 else "top" if aside[1] > 0 else "bottom"
    axes.text(x, y, f"{number:.4g}", ha=across, va=along, fontsize="xx-small", zorder=3)
