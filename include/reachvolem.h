/* Reachvolem: lamps gathered into clusters for every zoom of a map, from C and C++.
   Written by tools/bindings from crates/exports/src/lib.rt and tools/bindings.d/reachvolem.h; change those, not this.

   First the proved library's own names (kdbush_.., supercluster_..), which take every option and every column by itself. Behind them
   stand short names over two structs (rv_..), written by hand and tested; most callers want only those. docs/SCOPE.md says what each
   question answers.

   Replies. Each function that can refuse answers a number: 0, or that of the refusal, which rv_words puts into words. What the reply
   carries is left in *carried, 0 where it carries nothing. For the same arguments and contents the reply and all that is written are
   always the same. A refusal writes nothing but what its function's comment says; 10 and an 11 that is met in a walk leave the items that
   came before and fit. Past its items an output column stays as it was.

   10, no room. Carried is how many items there are. So one asks once with the room at hand, and where the number is 10 once more with
   room for *carried items; a call with room 0 asks for the number alone.

   Columns. Every length is in entries, not in bytes. Nothing that is written may overlap another argument of the same call; what is only
   read may. A column of length 0 may be a null pointer; each other pointer, carried among them, points to what its type says.

   The machine. 64-bit only. The library has no variables of its own, takes no lock and no memory but the stack: at most RV_STACK_TALLY
   bytes for a tally, RV_STACK_LEAVES for leaves, RV_STACK for any other call (measured on x86-64). So any number of threads may ask one
   map at the same time; while rv_load or rv_post writes it, no other may. It is linked so:
   `tools/native-lib exports`, then `cc -I include YOUR.c target/native/libexports.a`; with a dist of
   tools/make-dist, in its folder, `cc -I include YOUR.c asm/reachvolem-$(uname -m).s`. Floats are IEEE 754's, rounded to
   nearest; a program that changes how they are rounded, or has tiny numbers flushed to 0, gets other answers. */
#ifndef REACHVOLEM_H
#define REACHVOLEM_H

#include <stdbool.h>
#include <stddef.h>
#include <stdint.h>

#if SIZE_MAX != UINT64_MAX
#error "Reachvolem is for machines with a 64-bit size_t."
#endif

#ifdef __cplusplus
extern "C" {
#endif

/* ---- The library's own names.
   The options are the first sixteen arguments, as in rv_options below. A question goes by the state of a build: its options, count (how
   many points it had) and by zoom where each table starts and how long it is, as supercluster_load left them. */

/* The index of N points, xs_len of them, whose coordinates are from 0 to 1. Written are the first N entries of ids (the place of
   each slot) and the first 2N of coords (its x and y), sorted by node_size (1 to 65,535); what lies behind them stays. Refused in
   this order, and then neither is written: 1 node_size, 2 N is not from 1 to 1,048,576 or ys has not N, 3 a coordinate (carried: the
   first such point, from 0), 4 ids has fewer than N entries or coords fewer than 2N. */
uint32_t kdbush_build(
    size_t node_size,
    const double *xs, size_t xs_len,
    const double *ys, size_t ys_len,
    uint32_t *ids, size_t ids_len,
    double *coords, size_t coords_len,
    size_t *carried);

/* Searches an index of n points: the places of those with min_x <= x <= max_x and min_y <= y <= max_y, in the order of the walk.
   Written are the first entries of out, carried is how many. Refused in this order: 11 by node_size, n or a short column, 9 a number
   that is not finite, 11 a slot whose place is not below n (out has those before it that fit), 10 out is too short (carried: how
   many there are; out has those that fit). 9 and the first 11 write nothing. */
uint32_t kdbush_range(
    size_t node_size,
    size_t n,
    const uint32_t *ids, size_t ids_len,
    const double *coords, size_t coords_len,
    double min_x,
    double min_y,
    double max_x,
    double max_y,
    uint32_t *out, size_t out_len,
    size_t *carried);

/* Searches an index of n points: the places of those with (x - qx)^2 + (y - qy)^2 <= radius^2, in the order of the walk. Written,
   carried and refused as for kdbush_range; 9 also refuses a radius below 0. */
uint32_t kdbush_within(
    size_t node_size,
    size_t n,
    const uint32_t *ids, size_t ids_len,
    const double *coords, size_t coords_len,
    double qx,
    double qy,
    double radius,
    uint32_t *out, size_t out_len,
    size_t *carried);

/* The walk of kdbush_range by steps, over coords alone. slot is the first slot that passes, and ids[slot] its place; where none
   passes, it is the largest size_t. Refused: 11 by node_size, n or short coords, 9 a number that is not finite; then, too, slot is
   the largest size_t. */
uint32_t kdbush_range_first(
    size_t node_size,
    size_t n,
    const double *coords, size_t coords_len,
    double min_x,
    double min_y,
    double max_x,
    double max_y,
    size_t *slot);

/* The slot that follows slot in that walk, into next; the largest size_t where none follows, and for each slot from n on. Refused as
   kdbush_range_first, with the largest size_t in next. */
uint32_t kdbush_range_after(
    size_t node_size,
    size_t n,
    const double *coords, size_t coords_len,
    double min_x,
    double min_y,
    double max_x,
    double max_y,
    size_t slot,
    size_t *next);

/* The walk of kdbush_within by steps. As kdbush_range_first; 9 also refuses a radius below 0. */
uint32_t kdbush_within_first(
    size_t node_size,
    size_t n,
    const double *coords, size_t coords_len,
    double qx,
    double qy,
    double radius,
    size_t *slot);

/* The slot that follows slot in that walk, into next. As kdbush_range_after; 9 also refuses a radius below 0. */
uint32_t kdbush_within_after(
    size_t node_size,
    size_t n,
    const double *coords, size_t coords_len,
    double qx,
    double qy,
    double radius,
    size_t slot,
    size_t *next);

/* A number of a Cartesian plan as the tables have it: (v - offset) / scale. The offset is as given, or else the lesser of min_x and
   min_y; the scale as given, or else the greater of max_x and max_y less the offset. All numbers are taken, and none is refused: a
   range that no build takes gives what the formula gives. */
double supercluster_normalize(
    double min_x,
    double min_y,
    double max_x,
    double max_y,
    bool offset_given,
    double offset,
    bool scale_given,
    double scale,
    double v);

/* And back: v * scale + offset, with the offset and the scale as for supercluster_normalize. */
double supercluster_denormalize(
    double min_x,
    double min_y,
    double max_x,
    double max_y,
    bool offset_given,
    double offset,
    bool scale_given,
    double scale,
    double v);

/* The zoom whose table a question at this zoom goes to: zoom, but at least min_zoom and at most max_zoom + 1. Only these two options
   are looked at, and none is refused. */
uint8_t supercluster_zoom_used(
    uint8_t min_zoom,
    uint8_t max_zoom,
    uint8_t min_points,
    double radius,
    double extent,
    size_t node_size,
    bool cartesian,
    double min_x,
    double min_y,
    double max_x,
    double max_y,
    bool offset_given,
    double offset,
    bool scale_given,
    double scale,
    bool longitude_strips_only,
    uint8_t zoom);

/* Builds the tables of N points, xs_len of them: xs and ys in the coordinates of the options, energies in watt-hours. With need =
   (max_zoom - min_zoom + 2) * N, each of the eleven columns from x to owners has at least need entries, coords twice as many. Written
   are the tables in x, y, seen, id, parent, num, energy, the finest first, their indexes in ids and coords, 0 in the first 2N of
   near, in the first need of owners each lamp's owner, N places a table, the finest first, and in starts and lens, by zoom, where
   each table starts and how long it is; what lies behind stays. Carried is 0. Refused in this order, and then nothing but carried is
   written: 1 an option, 2 N is not from 1 to 1,048,576 or ys or energies has not N, 3 a converted coordinate is not from 0 to 1, 15
   an energy above 2^40 (3 and 15 carry the first such point, from 0), 4 a column is too short. */
uint32_t supercluster_load(
    uint8_t min_zoom,
    uint8_t max_zoom,
    uint8_t min_points,
    double radius,
    double extent,
    size_t node_size,
    bool cartesian,
    double min_x,
    double min_y,
    double max_x,
    double max_y,
    bool offset_given,
    double offset,
    bool scale_given,
    double scale,
    bool longitude_strips_only,
    const double *xs, size_t xs_len,
    const double *ys, size_t ys_len,
    const uint64_t *energies, size_t energies_len,
    double *x, size_t x_len,
    double *y, size_t y_len,
    uint8_t *seen, size_t seen_len,
    uint32_t *id, size_t id_len,
    uint32_t *parent, size_t parent_len,
    uint32_t *num, size_t num_len,
    uint64_t *energy, size_t energy_len,
    uint32_t *ids, size_t ids_len,
    double *coords, size_t coords_len,
    uint32_t *near, size_t near_len,
    uint32_t *owners, size_t owners_len,
    uint32_t starts[32],
    uint32_t lens[32],
    size_t *carried);

/* The places of the table of the zoom used in the box from (west, least_y) to (east, greatest_y), in the coordinates of the options.
   y grows downwards on a mercator map, so that least_y is the northern edge of a longitude build; on a Cartesian plan it is the
   least y as given. Written are the first entries of out, carried is how many. Refused in this order: 11 by the state, 9 a number
   that is not finite or, with longitudes, a y not from 0 to 1, 11 in the walk (out has the places before it that fit), 10 out is too
   short (carried: how many there are; out has those that fit). 9 and the first 11 write nothing. */
uint32_t supercluster_box(
    uint8_t min_zoom,
    uint8_t max_zoom,
    uint8_t min_points,
    double radius,
    double extent,
    size_t node_size,
    bool cartesian,
    double min_x,
    double min_y,
    double max_x,
    double max_y,
    bool offset_given,
    double offset,
    bool scale_given,
    double scale,
    bool longitude_strips_only,
    uint32_t count,
    const uint32_t starts[32],
    const uint32_t lens[32],
    const uint32_t *ids, size_t ids_len,
    const double *coords, size_t coords_len,
    uint8_t zoom,
    double west,
    double least_y,
    double east,
    double greatest_y,
    uint32_t *out, size_t out_len,
    size_t *carried);

/* The same within so many tests, the allowance, which the two halves of a box that crosses the date line share. Beside what was
   found, tested is how many slots were tested, and stopped whether a test was left. Written and refused as for supercluster_box, but
   10 and 11 in the walk look only at the tests made. 0 and 10 leave tested and stopped as they come out; the other refusals 0 and
   false. */
uint32_t supercluster_box_effort(
    uint8_t min_zoom,
    uint8_t max_zoom,
    uint8_t min_points,
    double radius,
    double extent,
    size_t node_size,
    bool cartesian,
    double min_x,
    double min_y,
    double max_x,
    double max_y,
    bool offset_given,
    double offset,
    bool scale_given,
    double scale,
    bool longitude_strips_only,
    uint32_t count,
    const uint32_t starts[32],
    const uint32_t lens[32],
    const uint32_t *ids, size_t ids_len,
    const double *coords, size_t coords_len,
    uint8_t zoom,
    double west,
    double least_y,
    double east,
    double greatest_y,
    size_t allowance,
    uint32_t *out, size_t out_len,
    size_t *tested,
    bool *stopped,
    size_t *carried);

/* The places of the table of the zoom used with (x - ring_x)^2 + (y - ring_y)^2 <= ring_radius^2; all are in the tables' own numbers
   from 0 to 1, nothing is converted. Written, carried and refused as for supercluster_box; 9 is a number that is not finite, or a
   radius below 0. */
uint32_t supercluster_ring(
    uint8_t min_zoom,
    uint8_t max_zoom,
    uint8_t min_points,
    double radius,
    double extent,
    size_t node_size,
    bool cartesian,
    double min_x,
    double min_y,
    double max_x,
    double max_y,
    bool offset_given,
    double offset,
    bool scale_given,
    double scale,
    bool longitude_strips_only,
    uint32_t count,
    const uint32_t starts[32],
    const uint32_t lens[32],
    const uint32_t *ids, size_t ids_len,
    const double *coords, size_t coords_len,
    uint8_t zoom,
    double ring_x,
    double ring_y,
    double ring_radius,
    uint32_t *out, size_t out_len,
    size_t *carried);

/* The places of the children of the cluster cid, in the table of zoom (cid - N) mod 32. Written are the first entries of out,
   carried is how many. Refused in this order: 11 by the state, 6 cid is below N, 5 its table is below min_zoom or above max_zoom +
   1, 6 its table is that of min_zoom or its origin past the table, 11 in the walk (out has those before it that fit), 6 no children,
   10 out is too short (carried: how many there are; out has those that fit). 5, 6 and the first 11 write nothing. */
uint32_t supercluster_children(
    uint8_t min_zoom,
    uint8_t max_zoom,
    uint8_t min_points,
    double radius,
    double extent,
    size_t node_size,
    bool cartesian,
    double min_x,
    double min_y,
    double max_x,
    double max_y,
    bool offset_given,
    double offset,
    bool scale_given,
    double scale,
    bool longitude_strips_only,
    uint32_t count,
    const uint32_t starts[32],
    const uint32_t lens[32],
    const double *x, size_t x_len,
    const double *y, size_t y_len,
    const uint8_t *seen, size_t seen_len,
    const uint32_t *id, size_t id_len,
    const uint32_t *parent, size_t parent_len,
    const uint32_t *num, size_t num_len,
    const uint64_t *energy, size_t energy_len,
    const uint32_t *ids, size_t ids_len,
    const double *coords, size_t coords_len,
    uint32_t cid,
    uint32_t *out, size_t out_len,
    size_t *carried);

/* The ids of the lamps of the cluster cid: at most limit of them, after the first skip. Limit 0 lists none; the cluster's num as
   limit and skip 0 lists all. Written, carried and refused as for supercluster_children. */
uint32_t supercluster_leaves(
    uint8_t min_zoom,
    uint8_t max_zoom,
    uint8_t min_points,
    double radius,
    double extent,
    size_t node_size,
    bool cartesian,
    double min_x,
    double min_y,
    double max_x,
    double max_y,
    bool offset_given,
    double offset,
    bool scale_given,
    double scale,
    bool longitude_strips_only,
    uint32_t count,
    const uint32_t starts[32],
    const uint32_t lens[32],
    const double *x, size_t x_len,
    const double *y, size_t y_len,
    const uint8_t *seen, size_t seen_len,
    const uint32_t *id, size_t id_len,
    const uint32_t *parent, size_t parent_len,
    const uint32_t *num, size_t num_len,
    const uint64_t *energy, size_t energy_len,
    const uint32_t *ids, size_t ids_len,
    const double *coords, size_t coords_len,
    uint32_t cid,
    uint32_t limit,
    uint32_t skip,
    uint32_t *out, size_t out_len,
    size_t *carried);

/* The zoom at which the cluster cid falls apart, as what is carried. Refused as supercluster_children, but 10 does not occur. */
uint32_t supercluster_expansion_zoom(
    uint8_t min_zoom,
    uint8_t max_zoom,
    uint8_t min_points,
    double radius,
    double extent,
    size_t node_size,
    bool cartesian,
    double min_x,
    double min_y,
    double max_x,
    double max_y,
    bool offset_given,
    double offset,
    bool scale_given,
    double scale,
    bool longitude_strips_only,
    uint32_t count,
    const uint32_t starts[32],
    const uint32_t lens[32],
    const double *x, size_t x_len,
    const double *y, size_t y_len,
    const uint8_t *seen, size_t seen_len,
    const uint32_t *id, size_t id_len,
    const uint32_t *parent, size_t parent_len,
    const uint32_t *num, size_t num_len,
    const uint64_t *energy, size_t energy_len,
    const uint32_t *ids, size_t ids_len,
    const double *coords, size_t coords_len,
    uint32_t cid,
    size_t *carried);

/* The entries that the tile (z, tile_x, tile_y) lists: their places in the table of the zoom used, and where they stand in the tile,
   px to the right and py downwards, in units of which a side of the tile has extent. Written are the first entries of places, px and
   py, carried is how many. Refused in this order: 11 by the state, 7 no such tile, 11 in the walk (the columns have those before it
   that fit), 8 no entries, 10 the shortest of the three is too short (carried: how many there are; they have those that fit). 7, 8
   and the first 11 write nothing. */
uint32_t supercluster_tile(
    uint8_t min_zoom,
    uint8_t max_zoom,
    uint8_t min_points,
    double radius,
    double extent,
    size_t node_size,
    bool cartesian,
    double min_x,
    double min_y,
    double max_x,
    double max_y,
    bool offset_given,
    double offset,
    bool scale_given,
    double scale,
    bool longitude_strips_only,
    uint32_t count,
    const uint32_t starts[32],
    const uint32_t lens[32],
    const double *x, size_t x_len,
    const double *y, size_t y_len,
    const uint8_t *seen, size_t seen_len,
    const uint32_t *id, size_t id_len,
    const uint32_t *parent, size_t parent_len,
    const uint32_t *num, size_t num_len,
    const uint64_t *energy, size_t energy_len,
    const uint32_t *ids, size_t ids_len,
    const double *coords, size_t coords_len,
    uint8_t z,
    uint32_t tile_x,
    uint32_t tile_y,
    uint32_t *places, size_t places_len,
    int64_t *px, size_t px_len,
    int64_t *py, size_t py_len,
    size_t *carried);

/* The nums of the entries that the tile (z, tile_x, tile_y) lists and whose centre it holds, added up, each entry once, as what is
   carried; 0 where it lists none. Refused in this order: 11 by the state, 7 no such tile, 11 in the walk. */
uint32_t supercluster_tally(
    uint8_t min_zoom,
    uint8_t max_zoom,
    uint8_t min_points,
    double radius,
    double extent,
    size_t node_size,
    bool cartesian,
    double min_x,
    double min_y,
    double max_x,
    double max_y,
    bool offset_given,
    double offset,
    bool scale_given,
    double scale,
    bool longitude_strips_only,
    uint32_t count,
    const uint32_t starts[32],
    const uint32_t lens[32],
    const double *x, size_t x_len,
    const double *y, size_t y_len,
    const uint8_t *seen, size_t seen_len,
    const uint32_t *id, size_t id_len,
    const uint32_t *parent, size_t parent_len,
    const uint32_t *num, size_t num_len,
    const uint64_t *energy, size_t energy_len,
    const uint32_t *ids, size_t ids_len,
    const double *coords, size_t coords_len,
    uint8_t z,
    uint32_t tile_x,
    uint32_t tile_y,
    size_t *carried);

/* The entry that owns a lamp in the table of the zoom used: its place in that table goes into place, 0 where it is refused. owners is
   the column that a build leaves beside its tables: N places for each table, the finest first. Refused in this order: 11 by the
   state, or owners has fewer than (max_zoom - min_zoom + 2) * N entries, 16 lamp is not below N, 11 the table has no such place. */
uint32_t supercluster_owner(
    uint8_t min_zoom,
    uint8_t max_zoom,
    uint8_t min_points,
    double radius,
    double extent,
    size_t node_size,
    bool cartesian,
    double min_x,
    double min_y,
    double max_x,
    double max_y,
    bool offset_given,
    double offset,
    bool scale_given,
    double scale,
    bool longitude_strips_only,
    uint32_t count,
    const uint32_t starts[32],
    const uint32_t lens[32],
    const uint32_t *owners, size_t owners_len,
    uint32_t lamp,
    uint8_t zoom,
    size_t *place);

/* Replaces the figure of one lamp, in watt-hours, without a new build. energy and owners are the columns that a build leaves. Written
   are the lamp's own energy in the finest table and, in each other table, the energy of the entry that owns the lamp; all else stays,
   so that the columns are as a build with the new figure leaves them. Refused in this order, and then nothing is written: 11 by the
   state, or owners has fewer than (max_zoom - min_zoom + 2) * N entries, 16 lamp is not below N, 15 figure is above 2^40, 11 an
   owner's place is past its table, in the finest table any but the lamp itself, or its energy is below the lamp's figure so far or
   would pass 64 bits. */
uint32_t supercluster_post(
    uint8_t min_zoom,
    uint8_t max_zoom,
    uint8_t min_points,
    double radius,
    double extent,
    size_t node_size,
    bool cartesian,
    double min_x,
    double min_y,
    double max_x,
    double max_y,
    bool offset_given,
    double offset,
    bool scale_given,
    double scale,
    bool longitude_strips_only,
    uint32_t count,
    const uint32_t starts[32],
    const uint32_t lens[32],
    uint64_t *energy, size_t energy_len,
    const uint32_t *owners, size_t owners_len,
    uint32_t lamp,
    uint64_t figure);

/* The entry at a place of the table of a zoom, as a box or a tile lists it: its x and y in the tables' numbers from 0 to 1
   (supercluster_denormalize gives them back), the last zoom that marked it (255: none), its id, the id of the cluster that took it
   in (4,294,967,295: none), how many lamps it has, and their watt-hours. Refused in this order, and then nothing is written: 11 by
   the state, 5 zoom is below min_zoom or above max_zoom + 1, 6 the table has no such place. */
uint32_t supercluster_entry(
    uint8_t min_zoom,
    uint8_t max_zoom,
    uint8_t min_points,
    double radius,
    double extent,
    size_t node_size,
    bool cartesian,
    double min_x,
    double min_y,
    double max_x,
    double max_y,
    bool offset_given,
    double offset,
    bool scale_given,
    double scale,
    bool longitude_strips_only,
    uint32_t count,
    const uint32_t starts[32],
    const uint32_t lens[32],
    const double *x, size_t x_len,
    const double *y, size_t y_len,
    const uint8_t *seen, size_t seen_len,
    const uint32_t *id, size_t id_len,
    const uint32_t *parent, size_t parent_len,
    const uint32_t *num, size_t num_len,
    const uint64_t *energy, size_t energy_len,
    const uint32_t *ids, size_t ids_len,
    const double *coords, size_t coords_len,
    uint8_t zoom,
    uint32_t place,
    double *entry_x,
    double *entry_y,
    uint8_t *entry_seen,
    uint32_t *entry_id,
    uint32_t *entry_parent,
    uint32_t *entry_num,
    uint64_t *entry_energy);

/* ---- Short names over two structs. */

/* The number of a refusal, and what stands in seen and parent where they are unset. */
#define RV_OPTIONS_REFUSED 1u
#define RV_COUNT_REFUSED 2u
#define RV_POINT_REFUSED 3u
#define RV_COLUMN_TOO_SHORT 4u
#define RV_NO_TABLE 5u
#define RV_NO_CLUSTER 6u
#define RV_NO_TILE 7u
#define RV_EMPTY_TILE 8u
#define RV_BOX_REFUSED 9u
#define RV_NO_ROOM 10u
#define RV_SPOILED 11u
#define RV_ENERGY_REFUSED 15u
#define RV_NO_LAMP 16u
#define RV_NEVER_SEEN 255u
#define RV_NO_PARENT 4294967295u

/* Bytes of stack that a call takes at most: of supercluster_tally, of supercluster_leaves, and of every other. */
#define RV_STACK_TALLY 147456u
#define RV_STACK_LEAVES 98304u
#define RV_STACK 16384u

/* What a build goes by. With longitudes (not cartesian) the eight numbers of the plan's range are not looked at. */
typedef struct rv_options {
    uint8_t min_zoom;   /* 0 <= min_zoom <= max_zoom <= 30 */
    uint8_t max_zoom;
    uint8_t min_points; /* lamps that a cluster has at least */
    double radius;      /* 0 to 65,536: how far a cluster reaches, in the units of extent */
    double extent;      /* 1 to 65,536: the side of a tile */
    size_t node_size;   /* 1 to 65,535: slots of the index that are not sorted further */
    bool cartesian;     /* a plan with a range; if not, x is a longitude in degrees and y from 0 to 1, southwards */
    double min_x;       /* the range: all finite, the scale above 0 */
    double min_y;
    double max_x;
    double max_y;
    bool offset_given;  /* if not, the lesser of min_x and min_y */
    double offset;
    bool scale_given;   /* if not, the greater of max_x and max_y, less the offset */
    double scale;
    bool longitude_strips_only; /* a plan's tiles have no strips from the far side */
} rv_options;

/* The tables of a build and their state. Set it to zeros, then the options and the columns (rv_lend), then call rv_load, which sets count,
   starts and lens. Who changes an option or a column later, other than by rv_post, has to build again. */
typedef struct rv_map {
    rv_options options;
    uint32_t count;      /* points of the build; 0: none yet, and each question is refused 11 */
    uint32_t starts[32]; /* by zoom, where its table starts in the columns, and how long it is */
    uint32_t lens[32];
    size_t room;         /* entries in each column; coords has twice as many */
    double *x, *y;
    uint8_t *seen;
    uint32_t *id, *parent, *num;
    uint64_t *energy;    /* watt-hours */
    uint32_t *ids;
    double *coords;
    uint32_t *near;      /* working room of rv_load; no question looks at it */
    uint32_t *owners;    /* the places of the lamps' owners: count of them for each table, the finest first (rv_owner) */
} rv_map;

/* An entry of a table. */
typedef struct rv_fields {
    double x, y;     /* from 0 to 1 */
    uint8_t seen;    /* the last zoom that marked it, or RV_NEVER_SEEN */
    uint32_t id;     /* a lamp's number from 0, or a cluster's id */
    uint32_t parent; /* the id of the cluster that took it in, or RV_NO_PARENT */
    uint32_t num;    /* lamps */
    uint64_t energy; /* watt-hours */
} rv_fields;

/* An index alone, without tables. */
typedef struct rv_index {
    size_t node_size;
    size_t n;     /* points; set by rv_index_build */
    size_t room;  /* entries in ids; coords has twice as many */
    uint32_t *ids;
    double *coords;
} rv_index;

/* A sentence for the number of a reply. */
static inline const char *rv_words(uint32_t number) {
    switch (number) {
    case 0: return "no refusal";
    case RV_OPTIONS_REFUSED: return "an option is out of bounds";
    case RV_COUNT_REFUSED: return "there are no points, more than 1,048,576, or not as many ys or energies as xs";
    case RV_POINT_REFUSED: return "a point lies outside the range, or is no number";
    case RV_COLUMN_TOO_SHORT: return "a lent column is too short";
    case RV_NO_TABLE: return "there is no table of that zoom";
    case RV_NO_CLUSTER: return "there is no such cluster, or no such place in the table";
    case RV_NO_TILE: return "there is no such tile";
    case RV_EMPTY_TILE: return "the tile has no entries";
    case RV_BOX_REFUSED: return "a number of the box, ring or search is not finite or not in bounds";
    case RV_NO_ROOM: return "there are more items than the output has room for";
    case RV_SPOILED: return "the tables and their state do not fit together";
    case RV_ENERGY_REFUSED: return "a point brings, or a lamp is posted, more than 2^40 watt-hours";
    case RV_NO_LAMP: return "there is no such lamp";
    default: return "no number of a reply";
    }
}

/* How many entries each column of a build of n points has to have: (max_zoom - min_zoom + 2) * n. 0 where a build of these zooms or of
   so many points is refused, whatever is lent. */
static inline size_t rv_entries_needed(const rv_options *options, size_t n) {
    if (options->min_zoom > options->max_zoom || options->max_zoom > 30 || n > 1048576)
        return 0;
    return ((size_t)options->max_zoom - options->min_zoom + 2) * n;
}

/* How many bytes the eleven columns of so many entries take in one piece of memory. */
static inline size_t rv_bytes_needed(size_t entries) {
    return entries * (4 * sizeof(double) + sizeof(uint64_t) + 6 * sizeof(uint32_t) + sizeof(uint8_t));
}

/* Lays the eleven columns of so many entries into memory, which is aligned for a double, as malloc's is, and as long as rv_bytes_needed
   says. Who has columns of his own sets them by himself, and room. The memory stays the caller's, who frees it after the last question.
   rv_load keeps nothing of xs, ys and energies. */
static inline void rv_lend(rv_map *map, void *memory, size_t entries) {
    map->room = entries;
    map->x = (double *)memory;
    map->y = map->x + entries;
    map->coords = map->y + entries;
    map->energy = (uint64_t *)(void *)(map->coords + 2 * entries);
    map->id = (uint32_t *)(void *)(map->energy + entries);
    map->parent = map->id + entries;
    map->num = map->parent + entries;
    map->ids = map->num + entries;
    map->near = map->ids + entries;
    map->owners = map->near + entries;
    map->seen = (uint8_t *)(void *)(map->owners + entries);
}

/* Where the id of a cluster leads, an id from count on: its children stand in the table of this zoom, around the entry at this place. */
static inline uint8_t rv_table_of(const rv_map *map, uint32_t id) {
    return (uint8_t)((id - map->count) % 32);
}

static inline uint32_t rv_origin_of(const rv_map *map, uint32_t id) {
    return (id - map->count) / 32;
}

#define RV_RANGE_(o) \
    (o)->min_x, (o)->min_y, (o)->max_x, (o)->max_y, (o)->offset_given, (o)->offset, (o)->scale_given, (o)->scale
#define RV_OPTIONS_(o) \
    (o)->min_zoom, (o)->max_zoom, (o)->min_points, (o)->radius, (o)->extent, (o)->node_size, (o)->cartesian, RV_RANGE_(o), \
    (o)->longitude_strips_only
#define RV_STATE_(m) RV_OPTIONS_(&(m)->options), (m)->count, (m)->starts, (m)->lens
#define RV_ENTRIES_(m) \
    (m)->x, (m)->room, (m)->y, (m)->room, (m)->seen, (m)->room, (m)->id, (m)->room, (m)->parent, (m)->room, (m)->num, (m)->room, \
    (m)->energy, (m)->room
#define RV_INDEX_(m) (m)->ids, (m)->room, (m)->coords, 2 * (m)->room

/* supercluster_load: builds the tables of n points, and the owners beside them. A refusal leaves the map as it was. */
static inline uint32_t rv_load(
    rv_map *map, const double *xs, const double *ys, const uint64_t *energies, size_t n, size_t *carried) {
    uint32_t number = supercluster_load(
        RV_OPTIONS_(&map->options), xs, n, ys, n, energies, n, RV_ENTRIES_(map), RV_INDEX_(map), map->near, map->room, map->owners,
        map->room, map->starts, map->lens, carried);
    if (number == 0)
        map->count = (uint32_t)n;
    return number;
}

/* supercluster_box: places of the table of the zoom used. */
static inline uint32_t rv_box(
    const rv_map *map, uint8_t zoom, double west, double least_y, double east, double greatest_y, uint32_t *out, size_t room,
    size_t *carried) {
    return supercluster_box(RV_STATE_(map), RV_INDEX_(map), zoom, west, least_y, east, greatest_y, out, room, carried);
}

/* supercluster_box_effort: the same within so many tests. */
static inline uint32_t rv_box_effort(
    const rv_map *map, uint8_t zoom, double west, double least_y, double east, double greatest_y, size_t allowance, uint32_t *out,
    size_t room, size_t *tested, bool *stopped, size_t *carried) {
    return supercluster_box_effort(
        RV_STATE_(map), RV_INDEX_(map), zoom, west, least_y, east, greatest_y, allowance, out, room, tested, stopped, carried);
}

/* supercluster_ring: places of the table of the zoom used. */
static inline uint32_t rv_ring(
    const rv_map *map, uint8_t zoom, double x, double y, double radius, uint32_t *out, size_t room, size_t *carried) {
    return supercluster_ring(RV_STATE_(map), RV_INDEX_(map), zoom, x, y, radius, out, room, carried);
}

/* supercluster_children: places of the table of rv_table_of(map, id). */
static inline uint32_t rv_children(const rv_map *map, uint32_t id, uint32_t *out, size_t room, size_t *carried) {
    return supercluster_children(RV_STATE_(map), RV_ENTRIES_(map), RV_INDEX_(map), id, out, room, carried);
}

/* supercluster_leaves: ids of lamps, at most limit of them after the first offset. */
static inline uint32_t rv_leaves(
    const rv_map *map, uint32_t id, uint32_t limit, uint32_t offset, uint32_t *out, size_t room, size_t *carried) {
    return supercluster_leaves(RV_STATE_(map), RV_ENTRIES_(map), RV_INDEX_(map), id, limit, offset, out, room, carried);
}

/* supercluster_expansion_zoom: the zoom is what is carried. */
static inline uint32_t rv_expansion_zoom(const rv_map *map, uint32_t id, size_t *carried) {
    return supercluster_expansion_zoom(RV_STATE_(map), RV_ENTRIES_(map), RV_INDEX_(map), id, carried);
}

/* supercluster_tile: places, and where they stand in the tile. Each of the three has room for so many. */
static inline uint32_t rv_tile(
    const rv_map *map, uint8_t z, uint32_t x, uint32_t y, uint32_t *places, int64_t *px, int64_t *py, size_t room, size_t *carried) {
    return supercluster_tile(
        RV_STATE_(map), RV_ENTRIES_(map), RV_INDEX_(map), z, x, y, places, room, px, room, py, room, carried);
}

/* supercluster_tally: the sum is what is carried. */
static inline uint32_t rv_tally(const rv_map *map, uint8_t z, uint32_t x, uint32_t y, size_t *carried) {
    return supercluster_tally(RV_STATE_(map), RV_ENTRIES_(map), RV_INDEX_(map), z, x, y, carried);
}

/* supercluster_entry: what stands at a place of the table of a zoom. A refusal leaves *entry as it was. Each call looks at the whole
   state; who reads many entries of a map that was built may read the columns at map->starts[zoom] + place. */
static inline uint32_t rv_entry(const rv_map *map, uint8_t zoom, uint32_t place, rv_fields *entry) {
    return supercluster_entry(
        RV_STATE_(map), RV_ENTRIES_(map), RV_INDEX_(map), zoom, place, &entry->x, &entry->y, &entry->seen, &entry->id, &entry->parent,
        &entry->num, &entry->energy);
}

/* supercluster_owner: the place of a lamp's owner in the table of the zoom used. *place is 0 where it is refused: 11 by the state or where
   room is less than rv_entries_needed, 16 where count or more is asked for, 11 where the table has no such place. Each call looks at the
   whole state; who reads many owners of a map that was built may read map->owners[(max_zoom + 1 - zoom) * count + lamp]. */
static inline uint32_t rv_owner(const rv_map *map, uint32_t lamp, uint8_t zoom, size_t *place) {
    return supercluster_owner(RV_STATE_(map), map->owners, map->room, lamp, zoom, place);
}

/* supercluster_post: replaces a lamp's figure, in watt-hours, in map->energy: the lamp's own in the finest table, and in each other table
   that of its owner. Then all columns are as rv_load with the new figure leaves them. Nothing is carried. A refusal leaves the map as it
   was: 11 by the state or where room is less than rv_entries_needed, 16 where count or more is asked for, 15 where figure is above 2^40,
   11 where an owner or its energy does not fit, as in no map that only rv_load and rv_post have written. */
static inline uint32_t rv_post(rv_map *map, uint32_t lamp, uint64_t figure) {
    return supercluster_post(RV_STATE_(map), map->energy, map->room, map->owners, map->room, lamp, figure);
}

/* supercluster_zoom_used: the zoom in whose table box, ring and tile list places, and in whose table an owner has its place. */
static inline uint8_t rv_zoom_used(const rv_options *options, uint8_t zoom) {
    return supercluster_zoom_used(RV_OPTIONS_(options), zoom);
}

/* supercluster_normalize and supercluster_denormalize: from a plan's coordinates to the tables' numbers, and back. */
static inline double rv_normalize(const rv_options *options, double v) {
    return supercluster_normalize(RV_RANGE_(options), v);
}

static inline double rv_denormalize(const rv_options *options, double v) {
    return supercluster_denormalize(RV_RANGE_(options), v);
}

/* kdbush_build: sorts n points with coordinates from 0 to 1. A refusal leaves the index as it was. */
static inline uint32_t rv_index_build(rv_index *index, const double *xs, const double *ys, size_t n, size_t *carried) {
    uint32_t number =
        kdbush_build(index->node_size, xs, n, ys, n, index->ids, index->room, index->coords, 2 * index->room, carried);
    if (number == 0)
        index->n = n;
    return number;
}

/* kdbush_range and kdbush_within: the places that pass. */
static inline uint32_t rv_index_range(
    const rv_index *index, double min_x, double min_y, double max_x, double max_y, uint32_t *out, size_t room, size_t *carried) {
    return kdbush_range(index->node_size, index->n, RV_INDEX_(index), min_x, min_y, max_x, max_y, out, room, carried);
}

static inline uint32_t rv_index_within(
    const rv_index *index, double x, double y, double radius, uint32_t *out, size_t room, size_t *carried) {
    return kdbush_within(index->node_size, index->n, RV_INDEX_(index), x, y, radius, out, room, carried);
}

#define RV_WALK_(i) (i)->node_size, (i)->n, (i)->coords, 2 * (i)->room

/* The same by steps: a slot, whose place is index->ids[slot]; SIZE_MAX behind the last. */
static inline uint32_t rv_index_range_first(
    const rv_index *index, double min_x, double min_y, double max_x, double max_y, size_t *slot) {
    return kdbush_range_first(RV_WALK_(index), min_x, min_y, max_x, max_y, slot);
}

static inline uint32_t rv_index_range_after(
    const rv_index *index, double min_x, double min_y, double max_x, double max_y, size_t slot, size_t *next) {
    return kdbush_range_after(RV_WALK_(index), min_x, min_y, max_x, max_y, slot, next);
}

static inline uint32_t rv_index_within_first(const rv_index *index, double x, double y, double radius, size_t *slot) {
    return kdbush_within_first(RV_WALK_(index), x, y, radius, slot);
}

static inline uint32_t rv_index_within_after(
    const rv_index *index, double x, double y, double radius, size_t slot, size_t *next) {
    return kdbush_within_after(RV_WALK_(index), x, y, radius, slot, next);
}

#undef RV_RANGE_
#undef RV_OPTIONS_
#undef RV_STATE_
#undef RV_ENTRIES_
#undef RV_INDEX_
#undef RV_WALK_

#ifdef __cplusplus
}
#endif

#endif
