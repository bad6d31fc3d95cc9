"""The check before a pull list is approved: counts anew, in Python and outside of the proof, what the tables say of each lamp."""
from __future__ import annotations

from array import array
from typing import List, Sequence, Tuple

from .lamps_answers import Asked
from .supercluster import UNSET, Supercluster


class Differs(Exception):
    """What was counted is not what the tables say."""


def check(asked: Asked) -> None:
    """One line of result: each lamp has one owner in each table, the one that the build keeps; counts, energies and leaves agree."""
    build = asked.build
    check_finest(build, asked.lamps.energies)
    owners, clusters = array("I", range(len(asked.lamps))), 0
    for zoom in build.zooms:
        asked.tell(f"checking table {zoom}, {build.length(zoom):,} entries")
        if zoom != build.zooms[0]:
            owners = climbed(build, zoom, owners)
        clusters += check_table(build, zoom, owners, asked.lamps.energies)
        check_owners(build, zoom, owners)
    entries = sum(build.length(zoom) for zoom in build.zooms)
    asked.out.write(f"ok lamps={len(asked.lamps)} tables={len(build.zooms)} entries={entries} clusters={clusters} "
                    f"wh={sum(asked.lamps.energies)} sha256={asked.lamps.digest}\n")


def check_finest(build: Supercluster, energies: Sequence[int]) -> None:
    """The finest table has each lamp at its place, with its own energy."""
    zoom = build.zooms[0]
    if list(build.table_column(zoom, "id")) != list(range(len(energies))):
        raise Differs(f"table {zoom}: its ids are not those of the lamps, in order")
    if list(build.table_column(zoom, "energy")) != list(energies):
        raise Differs(f"table {zoom}: its energies are not those of the file")


def climbed(build: Supercluster, zoom: int, owners: array) -> array:
    """The owner of each lamp, by place, from those of the table before: the entry with the id of the cluster that took that owner in or,
    where none did, with its own id. Differs where there is no such entry, or two. The owners that the build keeps are not looked at."""
    ids = build.table_column(zoom, "id")
    place_of = {id_: place for place, id_ in enumerate(ids)}
    if len(place_of) != len(ids):
        raise Differs(f"table {zoom}: two entries have one id")
    finer = zip(build.table_column(zoom + 1, "id"), build.table_column(zoom + 1, "parent"))
    try:
        step = [place_of[id_ if parent == UNSET else parent] for id_, parent in finer]
    except KeyError as why:
        raise Differs(f"table {zoom}: no entry has the id {why}, which owns an entry of table {zoom + 1}") from None
    return array("I", map(step.__getitem__, owners))


def check_owners(build: Supercluster, zoom: int, owners: array) -> None:
    """The owners that the build keeps beside its tables are those that were climbed to."""
    for lamp, (kept, climbed_to) in enumerate(zip(build.owners(zoom), owners)):
        if kept != climbed_to:
            raise Differs(f"table {zoom}, lamp {lamp}: the build keeps place {kept} as its owner's, the tables lead to place {climbed_to}")


def check_table(build: Supercluster, zoom: int, owners: array, energies: Sequence[int]) -> int:
    """Checks the counts, energies and leaves of a table, and answers how many clusters arose in it."""
    ids, nums, said = (build.table_column(zoom, name) for name in ("id", "num", "energy"))
    counted, summed = recounted(owners, energies, len(ids))
    arisen = 0
    for place, (id_, num, energy) in enumerate(zip(ids, nums, said)):
        if (num, energy) != (counted[place], summed[place]):
            raise Differs(f"table {zoom}, place {place}, id {id_}: it says {num} lamps and {energy} Wh, "
                          f"its lamps come to {counted[place]} and {summed[place]} Wh")
        # A cluster that was copied from a finer table was checked there.
        if num > 1 and build.table_of(id_) == zoom + 1:
            arisen += 1
            check_leaves(build, zoom, place, owners)
    return arisen


def recounted(owners: array, energies: Sequence[int], entries: int) -> Tuple[List[int], List[int]]:
    """How many lamps each entry owns, and their energies, added up."""
    nums, sums = [0] * entries, [0] * entries
    for owner, energy in zip(owners, energies):
        nums[owner] += 1
        sums[owner] += energy
    return nums, sums


def check_leaves(build: Supercluster, zoom: int, place: int, owners: array) -> None:
    """Whether a cluster's leaves are just the lamps that it owns, each once."""
    id_, num = build.table_column(zoom, "id")[place], build.table_column(zoom, "num")[place]
    found = build.get_leaves(id_, limit=num)
    if len(found) != num or len(set(found)) != num or any(owners[lamp] != place for lamp in found):
        raise Differs(f"table {zoom}, place {place}, id {id_}: its {len(found)} leaves are not the {num} lamps that it owns")
