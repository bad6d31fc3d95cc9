"""The C names of the proved library: what each takes and answers, and how they are bound to the loaded library.

Written by tools/bindings from crates/exports/src/lib.rt; change that, not this.
"""
import ctypes
import re

# The ctypes of the library's own words.
WORDS = {
    "bool": ctypes.c_bool,
    "u8": ctypes.c_uint8,
    "u32": ctypes.c_uint32,
    "u64": ctypes.c_uint64,
    "i64": ctypes.c_int64,
    "usize": ctypes.c_size_t,
    "f64": ctypes.c_double,
}

# By name: what it answers, and its arguments, each with its kind. A kind is a word ("f64"); a slice that is read ("&[f64]") or written
# ("&mut [f64]"), passed as a pointer and a length in entries; one word that is written ("&mut usize"); or an array ("&[u32; 32]",
# "&mut [u32; 32]"). The last two are passed as a pointer.
NAMES = {
    # The index of N points, xs_len of them, whose coordinates are from 0 to 1. Written are the first N entries of ids (the place of
    # each slot) and the first 2N of coords (its x and y), sorted by node_size (1 to 65,535); what lies behind them stays. Refused in
    # this order, and then neither is written: 1 node_size, 2 N is not from 1 to 1,048,576 or ys has not N, 3 a coordinate (carried: the
    # first such point, from 0), 4 ids has fewer than N entries or coords fewer than 2N.
    "kdbush_build": ("u32", [
        ("node_size", "usize"),
        ("xs", "&[f64]"),
        ("ys", "&[f64]"),
        ("ids", "&mut [u32]"),
        ("coords", "&mut [f64]"),
        ("carried", "&mut usize"),
    ]),
    # Searches an index of n points: the places of those with min_x <= x <= max_x and min_y <= y <= max_y, in the order of the walk.
    # Written are the first entries of out, carried is how many. Refused in this order: 11 by node_size, n or a short column, 9 a number
    # that is not finite, 11 a slot whose place is not below n (out has those before it that fit), 10 out is too short (carried: how
    # many there are; out has those that fit). 9 and the first 11 write nothing.
    "kdbush_range": ("u32", [
        ("node_size", "usize"),
        ("n", "usize"),
        ("ids", "&[u32]"),
        ("coords", "&[f64]"),
        ("min_x", "f64"),
        ("min_y", "f64"),
        ("max_x", "f64"),
        ("max_y", "f64"),
        ("out", "&mut [u32]"),
        ("carried", "&mut usize"),
    ]),
    # Searches an index of n points: the places of those with (x - qx)^2 + (y - qy)^2 <= radius^2, in the order of the walk. Written,
    # carried and refused as for kdbush_range; 9 also refuses a radius below 0.
    "kdbush_within": ("u32", [
        ("node_size", "usize"),
        ("n", "usize"),
        ("ids", "&[u32]"),
        ("coords", "&[f64]"),
        ("qx", "f64"),
        ("qy", "f64"),
        ("radius", "f64"),
        ("out", "&mut [u32]"),
        ("carried", "&mut usize"),
    ]),
    # The walk of kdbush_range by steps, over coords alone. slot is the first slot that passes, and ids[slot] its place; where none
    # passes, it is the largest size_t. Refused: 11 by node_size, n or short coords, 9 a number that is not finite; then, too, slot is
    # the largest size_t.
    "kdbush_range_first": ("u32", [
        ("node_size", "usize"),
        ("n", "usize"),
        ("coords", "&[f64]"),
        ("min_x", "f64"),
        ("min_y", "f64"),
        ("max_x", "f64"),
        ("max_y", "f64"),
        ("slot", "&mut usize"),
    ]),
    # The slot that follows slot in that walk, into next; the largest size_t where none follows, and for each slot from n on. Refused as
    # kdbush_range_first, with the largest size_t in next.
    "kdbush_range_after": ("u32", [
        ("node_size", "usize"),
        ("n", "usize"),
        ("coords", "&[f64]"),
        ("min_x", "f64"),
        ("min_y", "f64"),
        ("max_x", "f64"),
        ("max_y", "f64"),
        ("slot", "usize"),
        ("next", "&mut usize"),
    ]),
    # The walk of kdbush_within by steps. As kdbush_range_first; 9 also refuses a radius below 0.
    "kdbush_within_first": ("u32", [
        ("node_size", "usize"),
        ("n", "usize"),
        ("coords", "&[f64]"),
        ("qx", "f64"),
        ("qy", "f64"),
        ("radius", "f64"),
        ("slot", "&mut usize"),
    ]),
    # The slot that follows slot in that walk, into next. As kdbush_range_after; 9 also refuses a radius below 0.
    "kdbush_within_after": ("u32", [
        ("node_size", "usize"),
        ("n", "usize"),
        ("coords", "&[f64]"),
        ("qx", "f64"),
        ("qy", "f64"),
        ("radius", "f64"),
        ("slot", "usize"),
        ("next", "&mut usize"),
    ]),
    # A number of a Cartesian plan as the tables have it: (v - offset) / scale. The offset is as given, or else the lesser of min_x and
    # min_y; the scale as given, or else the greater of max_x and max_y less the offset. All numbers are taken, and none is refused: a
    # range that no build takes gives what the formula gives.
    "supercluster_normalize": ("f64", [
        ("min_x", "f64"),
        ("min_y", "f64"),
        ("max_x", "f64"),
        ("max_y", "f64"),
        ("offset_given", "bool"),
        ("offset", "f64"),
        ("scale_given", "bool"),
        ("scale", "f64"),
        ("v", "f64"),
    ]),
    # And back: v * scale + offset, with the offset and the scale as for supercluster_normalize.
    "supercluster_denormalize": ("f64", [
        ("min_x", "f64"),
        ("min_y", "f64"),
        ("max_x", "f64"),
        ("max_y", "f64"),
        ("offset_given", "bool"),
        ("offset", "f64"),
        ("scale_given", "bool"),
        ("scale", "f64"),
        ("v", "f64"),
    ]),
    # The zoom whose table a question at this zoom goes to: zoom, but at least min_zoom and at most max_zoom + 1. Only these two options
    # are looked at, and none is refused.
    "supercluster_zoom_used": ("u8", [
        ("min_zoom", "u8"),
        ("max_zoom", "u8"),
        ("min_points", "u8"),
        ("radius", "f64"),
        ("extent", "f64"),
        ("node_size", "usize"),
        ("cartesian", "bool"),
        ("min_x", "f64"),
        ("min_y", "f64"),
        ("max_x", "f64"),
        ("max_y", "f64"),
        ("offset_given", "bool"),
        ("offset", "f64"),
        ("scale_given", "bool"),
        ("scale", "f64"),
        ("longitude_strips_only", "bool"),
        ("zoom", "u8"),
    ]),
    # Builds the tables of N points, xs_len of them: xs and ys in the coordinates of the options, energies in watt-hours. With need =
    # (max_zoom - min_zoom + 2) * N, each of the eleven columns from x to owners has at least need entries, coords twice as many. Written
    # are the tables in x, y, seen, id, parent, num, energy, the finest first, their indexes in ids and coords, 0 in the first 2N of
    # near, in the first need of owners each lamp's owner, N places a table, the finest first, and in starts and lens, by zoom, where
    # each table starts and how long it is; what lies behind stays. Carried is 0. Refused in this order, and then nothing but carried is
    # written: 1 an option, 2 N is not from 1 to 1,048,576 or ys or energies has not N, 3 a converted coordinate is not from 0 to 1, 15
    # an energy above 2^40 (3 and 15 carry the first such point, from 0), 4 a column is too short.
    "supercluster_load": ("u32", [
        ("min_zoom", "u8"),
        ("max_zoom", "u8"),
        ("min_points", "u8"),
        ("radius", "f64"),
        ("extent", "f64"),
        ("node_size", "usize"),
        ("cartesian", "bool"),
        ("min_x", "f64"),
        ("min_y", "f64"),
        ("max_x", "f64"),
        ("max_y", "f64"),
        ("offset_given", "bool"),
        ("offset", "f64"),
        ("scale_given", "bool"),
        ("scale", "f64"),
        ("longitude_strips_only", "bool"),
        ("xs", "&[f64]"),
        ("ys", "&[f64]"),
        ("energies", "&[u64]"),
        ("x", "&mut [f64]"),
        ("y", "&mut [f64]"),
        ("seen", "&mut [u8]"),
        ("id", "&mut [u32]"),
        ("parent", "&mut [u32]"),
        ("num", "&mut [u32]"),
        ("energy", "&mut [u64]"),
        ("ids", "&mut [u32]"),
        ("coords", "&mut [f64]"),
        ("near", "&mut [u32]"),
        ("owners", "&mut [u32]"),
        ("starts", "&mut [u32; 32]"),
        ("lens", "&mut [u32; 32]"),
        ("carried", "&mut usize"),
    ]),
    # The places of the table of the zoom used in the box from (west, least_y) to (east, greatest_y), in the coordinates of the options.
    # y grows downwards on a mercator map, so that least_y is the northern edge of a longitude build; on a Cartesian plan it is the
    # least y as given. Written are the first entries of out, carried is how many. Refused in this order: 11 by the state, 9 a number
    # that is not finite or, with longitudes, a y not from 0 to 1, 11 in the walk (out has the places before it that fit), 10 out is too
    # short (carried: how many there are; out has those that fit). 9 and the first 11 write nothing.
    "supercluster_box": ("u32", [
        ("min_zoom", "u8"),
        ("max_zoom", "u8"),
        ("min_points", "u8"),
        ("radius", "f64"),
        ("extent", "f64"),
        ("node_size", "usize"),
        ("cartesian", "bool"),
        ("min_x", "f64"),
        ("min_y", "f64"),
        ("max_x", "f64"),
        ("max_y", "f64"),
        ("offset_given", "bool"),
        ("offset", "f64"),
        ("scale_given", "bool"),
        ("scale", "f64"),
        ("longitude_strips_only", "bool"),
        ("count", "u32"),
        ("starts", "&[u32; 32]"),
        ("lens", "&[u32; 32]"),
        ("ids", "&[u32]"),
        ("coords", "&[f64]"),
        ("zoom", "u8"),
        ("west", "f64"),
        ("least_y", "f64"),
        ("east", "f64"),
        ("greatest_y", "f64"),
        ("out", "&mut [u32]"),
        ("carried", "&mut usize"),
    ]),
    # The same within so many tests, the allowance, which the two halves of a box that crosses the date line share. Beside what was
    # found, tested is how many slots were tested, and stopped whether a test was left. Written and refused as for supercluster_box, but
    # 10 and 11 in the walk look only at the tests made. 0 and 10 leave tested and stopped as they come out; the other refusals 0 and
    # false.
    "supercluster_box_effort": ("u32", [
        ("min_zoom", "u8"),
        ("max_zoom", "u8"),
        ("min_points", "u8"),
        ("radius", "f64"),
        ("extent", "f64"),
        ("node_size", "usize"),
        ("cartesian", "bool"),
        ("min_x", "f64"),
        ("min_y", "f64"),
        ("max_x", "f64"),
        ("max_y", "f64"),
        ("offset_given", "bool"),
        ("offset", "f64"),
        ("scale_given", "bool"),
        ("scale", "f64"),
        ("longitude_strips_only", "bool"),
        ("count", "u32"),
        ("starts", "&[u32; 32]"),
        ("lens", "&[u32; 32]"),
        ("ids", "&[u32]"),
        ("coords", "&[f64]"),
        ("zoom", "u8"),
        ("west", "f64"),
        ("least_y", "f64"),
        ("east", "f64"),
        ("greatest_y", "f64"),
        ("allowance", "usize"),
        ("out", "&mut [u32]"),
        ("tested", "&mut usize"),
        ("stopped", "&mut bool"),
        ("carried", "&mut usize"),
    ]),
    # The places of the table of the zoom used with (x - ring_x)^2 + (y - ring_y)^2 <= ring_radius^2; all are in the tables' own numbers
    # from 0 to 1, nothing is converted. Written, carried and refused as for supercluster_box; 9 is a number that is not finite, or a
    # radius below 0.
    "supercluster_ring": ("u32", [
        ("min_zoom", "u8"),
        ("max_zoom", "u8"),
        ("min_points", "u8"),
        ("radius", "f64"),
        ("extent", "f64"),
        ("node_size", "usize"),
        ("cartesian", "bool"),
        ("min_x", "f64"),
        ("min_y", "f64"),
        ("max_x", "f64"),
        ("max_y", "f64"),
        ("offset_given", "bool"),
        ("offset", "f64"),
        ("scale_given", "bool"),
        ("scale", "f64"),
        ("longitude_strips_only", "bool"),
        ("count", "u32"),
        ("starts", "&[u32; 32]"),
        ("lens", "&[u32; 32]"),
        ("ids", "&[u32]"),
        ("coords", "&[f64]"),
        ("zoom", "u8"),
        ("ring_x", "f64"),
        ("ring_y", "f64"),
        ("ring_radius", "f64"),
        ("out", "&mut [u32]"),
        ("carried", "&mut usize"),
    ]),
    # The places of the children of the cluster cid, in the table of zoom (cid - N) mod 32. Written are the first entries of out,
    # carried is how many. Refused in this order: 11 by the state, 6 cid is below N, 5 its table is below min_zoom or above max_zoom +
    # 1, 6 its table is that of min_zoom or its origin past the table, 11 in the walk (out has those before it that fit), 6 no children,
    # 10 out is too short (carried: how many there are; out has those that fit). 5, 6 and the first 11 write nothing.
    "supercluster_children": ("u32", [
        ("min_zoom", "u8"),
        ("max_zoom", "u8"),
        ("min_points", "u8"),
        ("radius", "f64"),
        ("extent", "f64"),
        ("node_size", "usize"),
        ("cartesian", "bool"),
        ("min_x", "f64"),
        ("min_y", "f64"),
        ("max_x", "f64"),
        ("max_y", "f64"),
        ("offset_given", "bool"),
        ("offset", "f64"),
        ("scale_given", "bool"),
        ("scale", "f64"),
        ("longitude_strips_only", "bool"),
        ("count", "u32"),
        ("starts", "&[u32; 32]"),
        ("lens", "&[u32; 32]"),
        ("x", "&[f64]"),
        ("y", "&[f64]"),
        ("seen", "&[u8]"),
        ("id", "&[u32]"),
        ("parent", "&[u32]"),
        ("num", "&[u32]"),
        ("energy", "&[u64]"),
        ("ids", "&[u32]"),
        ("coords", "&[f64]"),
        ("cid", "u32"),
        ("out", "&mut [u32]"),
        ("carried", "&mut usize"),
    ]),
    # The ids of the lamps of the cluster cid: at most limit of them, after the first skip. Limit 0 lists none; the cluster's num as
    # limit and skip 0 lists all. Written, carried and refused as for supercluster_children.
    "supercluster_leaves": ("u32", [
        ("min_zoom", "u8"),
        ("max_zoom", "u8"),
        ("min_points", "u8"),
        ("radius", "f64"),
        ("extent", "f64"),
        ("node_size", "usize"),
        ("cartesian", "bool"),
        ("min_x", "f64"),
        ("min_y", "f64"),
        ("max_x", "f64"),
        ("max_y", "f64"),
        ("offset_given", "bool"),
        ("offset", "f64"),
        ("scale_given", "bool"),
        ("scale", "f64"),
        ("longitude_strips_only", "bool"),
        ("count", "u32"),
        ("starts", "&[u32; 32]"),
        ("lens", "&[u32; 32]"),
        ("x", "&[f64]"),
        ("y", "&[f64]"),
        ("seen", "&[u8]"),
        ("id", "&[u32]"),
        ("parent", "&[u32]"),
        ("num", "&[u32]"),
        ("energy", "&[u64]"),
        ("ids", "&[u32]"),
        ("coords", "&[f64]"),
        ("cid", "u32"),
        ("limit", "u32"),
        ("skip", "u32"),
        ("out", "&mut [u32]"),
        ("carried", "&mut usize"),
    ]),
    # The zoom at which the cluster cid falls apart, as what is carried. Refused as supercluster_children, but 10 does not occur.
    "supercluster_expansion_zoom": ("u32", [
        ("min_zoom", "u8"),
        ("max_zoom", "u8"),
        ("min_points", "u8"),
        ("radius", "f64"),
        ("extent", "f64"),
        ("node_size", "usize"),
        ("cartesian", "bool"),
        ("min_x", "f64"),
        ("min_y", "f64"),
        ("max_x", "f64"),
        ("max_y", "f64"),
        ("offset_given", "bool"),
        ("offset", "f64"),
        ("scale_given", "bool"),
        ("scale", "f64"),
        ("longitude_strips_only", "bool"),
        ("count", "u32"),
        ("starts", "&[u32; 32]"),
        ("lens", "&[u32; 32]"),
        ("x", "&[f64]"),
        ("y", "&[f64]"),
        ("seen", "&[u8]"),
        ("id", "&[u32]"),
        ("parent", "&[u32]"),
        ("num", "&[u32]"),
        ("energy", "&[u64]"),
        ("ids", "&[u32]"),
        ("coords", "&[f64]"),
        ("cid", "u32"),
        ("carried", "&mut usize"),
    ]),
    # The entries that the tile (z, tile_x, tile_y) lists: their places in the table of the zoom used, and where they stand in the tile,
    # px to the right and py downwards, in units of which a side of the tile has extent. Written are the first entries of places, px and
    # py, carried is how many. Refused in this order: 11 by the state, 7 no such tile, 11 in the walk (the columns have those before it
    # that fit), 8 no entries, 10 the shortest of the three is too short (carried: how many there are; they have those that fit). 7, 8
    # and the first 11 write nothing.
    "supercluster_tile": ("u32", [
        ("min_zoom", "u8"),
        ("max_zoom", "u8"),
        ("min_points", "u8"),
        ("radius", "f64"),
        ("extent", "f64"),
        ("node_size", "usize"),
        ("cartesian", "bool"),
        ("min_x", "f64"),
        ("min_y", "f64"),
        ("max_x", "f64"),
        ("max_y", "f64"),
        ("offset_given", "bool"),
        ("offset", "f64"),
        ("scale_given", "bool"),
        ("scale", "f64"),
        ("longitude_strips_only", "bool"),
        ("count", "u32"),
        ("starts", "&[u32; 32]"),
        ("lens", "&[u32; 32]"),
        ("x", "&[f64]"),
        ("y", "&[f64]"),
        ("seen", "&[u8]"),
        ("id", "&[u32]"),
        ("parent", "&[u32]"),
        ("num", "&[u32]"),
        ("energy", "&[u64]"),
        ("ids", "&[u32]"),
        ("coords", "&[f64]"),
        ("z", "u8"),
        ("tile_x", "u32"),
        ("tile_y", "u32"),
        ("places", "&mut [u32]"),
        ("px", "&mut [i64]"),
        ("py", "&mut [i64]"),
        ("carried", "&mut usize"),
    ]),
    # The nums of the entries that the tile (z, tile_x, tile_y) lists and whose centre it holds, added up, each entry once, as what is
    # carried; 0 where it lists none. Refused in this order: 11 by the state, 7 no such tile, 11 in the walk.
    "supercluster_tally": ("u32", [
        ("min_zoom", "u8"),
        ("max_zoom", "u8"),
        ("min_points", "u8"),
        ("radius", "f64"),
        ("extent", "f64"),
        ("node_size", "usize"),
        ("cartesian", "bool"),
        ("min_x", "f64"),
        ("min_y", "f64"),
        ("max_x", "f64"),
        ("max_y", "f64"),
        ("offset_given", "bool"),
        ("offset", "f64"),
        ("scale_given", "bool"),
        ("scale", "f64"),
        ("longitude_strips_only", "bool"),
        ("count", "u32"),
        ("starts", "&[u32; 32]"),
        ("lens", "&[u32; 32]"),
        ("x", "&[f64]"),
        ("y", "&[f64]"),
        ("seen", "&[u8]"),
        ("id", "&[u32]"),
        ("parent", "&[u32]"),
        ("num", "&[u32]"),
        ("energy", "&[u64]"),
        ("ids", "&[u32]"),
        ("coords", "&[f64]"),
        ("z", "u8"),
        ("tile_x", "u32"),
        ("tile_y", "u32"),
        ("carried", "&mut usize"),
    ]),
    # The entry that owns a lamp in the table of the zoom used: its place in that table goes into place, 0 where it is refused. owners is
    # the column that a build leaves beside its tables: N places for each table, the finest first. Refused in this order: 11 by the
    # state, or owners has fewer than (max_zoom - min_zoom + 2) * N entries, 16 lamp is not below N, 11 the table has no such place.
    "supercluster_owner": ("u32", [
        ("min_zoom", "u8"),
        ("max_zoom", "u8"),
        ("min_points", "u8"),
        ("radius", "f64"),
        ("extent", "f64"),
        ("node_size", "usize"),
        ("cartesian", "bool"),
        ("min_x", "f64"),
        ("min_y", "f64"),
        ("max_x", "f64"),
        ("max_y", "f64"),
        ("offset_given", "bool"),
        ("offset", "f64"),
        ("scale_given", "bool"),
        ("scale", "f64"),
        ("longitude_strips_only", "bool"),
        ("count", "u32"),
        ("starts", "&[u32; 32]"),
        ("lens", "&[u32; 32]"),
        ("owners", "&[u32]"),
        ("lamp", "u32"),
        ("zoom", "u8"),
        ("place", "&mut usize"),
    ]),
    # Replaces the figure of one lamp, in watt-hours, without a new build. energy and owners are the columns that a build leaves. Written
    # are the lamp's own energy in the finest table and, in each other table, the energy of the entry that owns the lamp; all else stays,
    # so that the columns are as a build with the new figure leaves them. Refused in this order, and then nothing is written: 11 by the
    # state, or owners has fewer than (max_zoom - min_zoom + 2) * N entries, 16 lamp is not below N, 15 figure is above 2^40, 11 an
    # owner's place is past its table, in the finest table any but the lamp itself, or its energy is below the lamp's figure so far or
    # would pass 64 bits.
    "supercluster_post": ("u32", [
        ("min_zoom", "u8"),
        ("max_zoom", "u8"),
        ("min_points", "u8"),
        ("radius", "f64"),
        ("extent", "f64"),
        ("node_size", "usize"),
        ("cartesian", "bool"),
        ("min_x", "f64"),
        ("min_y", "f64"),
        ("max_x", "f64"),
        ("max_y", "f64"),
        ("offset_given", "bool"),
        ("offset", "f64"),
        ("scale_given", "bool"),
        ("scale", "f64"),
        ("longitude_strips_only", "bool"),
        ("count", "u32"),
        ("starts", "&[u32; 32]"),
        ("lens", "&[u32; 32]"),
        ("energy", "&mut [u64]"),
        ("owners", "&[u32]"),
        ("lamp", "u32"),
        ("figure", "u64"),
    ]),
    # The entry at a place of the table of a zoom, as a box or a tile lists it: its x and y in the tables' numbers from 0 to 1
    # (supercluster_denormalize gives them back), the last zoom that marked it (255: none), its id, the id of the cluster that took it
    # in (4,294,967,295: none), how many lamps it has, and their watt-hours. Refused in this order, and then nothing is written: 11 by
    # the state, 5 zoom is below min_zoom or above max_zoom + 1, 6 the table has no such place.
    "supercluster_entry": ("u32", [
        ("min_zoom", "u8"),
        ("max_zoom", "u8"),
        ("min_points", "u8"),
        ("radius", "f64"),
        ("extent", "f64"),
        ("node_size", "usize"),
        ("cartesian", "bool"),
        ("min_x", "f64"),
        ("min_y", "f64"),
        ("max_x", "f64"),
        ("max_y", "f64"),
        ("offset_given", "bool"),
        ("offset", "f64"),
        ("scale_given", "bool"),
        ("scale", "f64"),
        ("longitude_strips_only", "bool"),
        ("count", "u32"),
        ("starts", "&[u32; 32]"),
        ("lens", "&[u32; 32]"),
        ("x", "&[f64]"),
        ("y", "&[f64]"),
        ("seen", "&[u8]"),
        ("id", "&[u32]"),
        ("parent", "&[u32]"),
        ("num", "&[u32]"),
        ("energy", "&[u64]"),
        ("ids", "&[u32]"),
        ("coords", "&[f64]"),
        ("zoom", "u8"),
        ("place", "u32"),
        ("entry_x", "&mut f64"),
        ("entry_y", "&mut f64"),
        ("entry_seen", "&mut u8"),
        ("entry_id", "&mut u32"),
        ("entry_parent", "&mut u32"),
        ("entry_num", "&mut u32"),
        ("entry_energy", "&mut u64"),
    ]),
}


def is_slice(kind):
    """Whether a length goes with the pointer."""
    return kind.startswith("&") and kind.endswith("]") and ";" not in kind


def word(kind):
    """The word of a kind: "f64" of "&mut [f64]"."""
    return re.search(r"\w+(?=[;\]]|$)", kind)[0]


def passed(kind):
    """The ctypes in which an argument of this kind is passed: one, or of a slice two."""
    if not kind.startswith("&"):
        return [WORDS[kind]]
    pointer = ctypes.POINTER(WORDS[word(kind)])
    return [pointer, ctypes.c_size_t] if is_slice(kind) else [pointer]


def bind(library):
    """Says to a loaded ctypes.CDLL what each name takes and answers. The functions by name."""
    functions = {}
    for name, (answer, arguments) in NAMES.items():
        function = getattr(library, name)
        function.restype = WORDS[answer]
        function.argtypes = [one for _, kind in arguments for one in passed(kind)]
        functions[name] = function
    return functions
