"""The components of a machine, by their numbers: what each is called, and the cycles that each kind of event takes there.

They are those of docs/time-and-weave.md.
"""

from typing import NamedTuple

# The kinds of events, by their numbers in an events file.
KINDS = ("lookup", "remote", "fill", "read", "write", "hop", "rowread")


class Part(NamedTuple):
    """A component: its kind, its number among those of this kind, and the least cycles of each kind of event there."""

    sort: str
    number: int
    floors: dict

    @property
    def name(self):
        return f"{self.sort} {self.number}"


def parts_of(values):
    """Returns the components of a machine with these values."""
    look_up, read, write = values["l2.latency"], values["controllers.read"], values["controllers.write"]
    # (of a read of a row the least time is that in the open one; what it takes longer counts as waiting)
    reads = {"rowread": values["dram.hit"]} if "dram.hit" in values else {"read": read}
    links = 4 * values.get("mesh.width", 0) * values.get("mesh.height", 0)
    bank = {"lookup": look_up, "remote": look_up + values["l2.remote"], "fill": values["l2.fill"]}
    controller = {**reads, "write": write}
    return [
        *(Part("bank", number, bank) for number in range(values["l2.banks"])),
        *(Part("controller", number, controller) for number in range(values["controllers.count"])),
        *(Part("link", number, {"hop": values["mesh.hop"]}) for number in range(links)),
    ]
