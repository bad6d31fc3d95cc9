/* Tries the short names of reachvolem.h on a plan of some hundred lamps. Each answer is held to what the columns say, entry by entry, or to
   another answer. Exit status 0 only where all is right. */
#include <math.h>
#include <stdio.h>
#include <stdlib.h>
#include <string.h>

#include "reachvolem.h"

enum { LAMPS = 300, ROOM = 2 * LAMPS };

static double given_x[LAMPS], given_y[LAMPS];
static uint64_t given_energy[LAMPS];
static uint32_t out[ROOM];
static size_t carried;
static long checks;
static long wrong;

static void hold(bool holds, const char *what) {
    checks += 1;
    if (holds)
        return;
    wrong += 1;
    printf("WRONG %s\n", what);
}

/* Numbers that look like chance, the same at each run. */
static uint64_t next_number(void) {
    static uint64_t state = 20261117;
    state = state * 6364136223846793005u + 1442695040888963407u;
    return state >> 33;
}

/* A plan from 1000 to 3000, both ways; the offset and the scale are derived. */
static rv_map plan(void) {
    rv_map map;
    size_t entries;
    memset(&map, 0, sizeof map);
    map.options.min_zoom = 1;
    map.options.max_zoom = 6;
    map.options.min_points = 2;
    map.options.radius = 40;
    map.options.extent = 512;
    map.options.node_size = 8;
    map.options.cartesian = true;
    map.options.min_x = map.options.min_y = 1000;
    map.options.max_x = map.options.max_y = 3000;
    for (size_t i = 0; i < LAMPS; i++) {
        given_x[i] = 1000 + (double)(next_number() % 2001);
        given_y[i] = 1000 + (double)(next_number() % 2001);
        given_energy[i] = next_number() % 1000;
    }
    entries = rv_entries_needed(&map.options, LAMPS);
    hold(entries == 7 * LAMPS, "rv_entries_needed is (max_zoom - min_zoom + 2) * n");
    rv_lend(&map, malloc(rv_bytes_needed(entries)), entries);
    hold(rv_load(&map, given_x, given_y, given_energy, LAMPS, &carried) == 0 && map.count == LAMPS, "rv_load");
    return map;
}

/* Each field of each entry is what stands in the columns, and past the table there is none. */
static void entries(const rv_map *map) {
    for (uint8_t zoom = 1; zoom <= 7; zoom++) {
        rv_fields e;
        for (uint32_t p = 0; p < map->lens[zoom]; p++) {
            size_t at = map->starts[zoom] + p;
            hold(rv_entry(map, zoom, p, &e) == 0, "rv_entry");
            hold(e.x == map->x[at] && e.y == map->y[at] && e.seen == map->seen[at] && e.id == map->id[at], "x, y, seen, id");
            hold(e.parent == map->parent[at] && e.num == map->num[at] && e.energy == map->energy[at], "parent, num, energy");
        }
        memset(&e, 7, sizeof e);
        hold(rv_entry(map, zoom, map->lens[zoom], &e) == RV_NO_CLUSTER && e.num == 0x07070707, "past a table: 6, and nothing written");
        hold(rv_entry(map, zoom, UINT32_MAX, &e) == RV_NO_CLUSTER, "far past a table: 6");
    }
}

static void refused_entries(rv_map map) {
    rv_fields e;
    memset(&e, 7, sizeof e);
    hold(rv_entry(&map, 0, 0, &e) == RV_NO_TABLE, "below min_zoom: 5");
    hold(rv_entry(&map, 8, 0, &e) == RV_NO_TABLE, "above max_zoom + 1: 5");
    hold(rv_entry(&map, 255, 0, &e) == RV_NO_TABLE, "zoom 255: 5");
    map.lens[6] += 1;
    hold(rv_entry(&map, 0, 0, &e) == RV_SPOILED, "a spoiled state comes first: 11");
    map.lens[6] -= 1;
    map.room = map.starts[1];
    hold(rv_entry(&map, 1, 0, &e) == RV_SPOILED, "columns too short for the state: 11");
    hold(e.num == 0x07070707 && e.seen == 7, "and nothing written");
}

/* Whether the first count of out are just the entries of a table that pass, none twice. */
static bool lists(const rv_map *map, uint8_t zoom, size_t count, bool (*passes)(double x, double y)) {
    size_t found = 0;
    for (uint32_t p = 0; p < map->lens[zoom]; p++) {
        size_t times = 0;
        for (size_t i = 0; i < count; i++)
            times += out[i] == p;
        if (times != passes(map->x[map->starts[zoom] + p], map->y[map->starts[zoom] + p]))
            return false;
        found += times;
    }
    return found == count;
}

static bool in_ring(double x, double y) {
    return (x - 0.5) * (x - 0.5) + (y - 0.25) * (y - 0.25) <= 0.25 * 0.25;
}

static bool in_box(double x, double y) {
    return 0.25 <= x && x <= 0.75 && 0.125 <= y && y <= 0.5;
}

static void searches(const rv_map *map) {
    for (int zoom = 0; zoom <= 9; zoom++) {
        uint8_t used = rv_zoom_used(&map->options, (uint8_t)zoom);
        size_t whole;
        hold(used == (zoom < 1 ? 1 : zoom > 7 ? 7 : zoom), "rv_zoom_used");
        hold(rv_ring(map, (uint8_t)zoom, 0.5, 0.25, 0.25, out, ROOM, &carried) == 0, "rv_ring");
        hold(lists(map, used, carried, in_ring), "a ring lists the entries inside");
        hold(rv_box(map, (uint8_t)zoom, 1500, 1250, 2500, 2000, out, ROOM, &whole) == 0, "rv_box");
        hold(lists(map, used, whole, in_box), "a box lists the entries inside");
        hold(rv_box(map, (uint8_t)zoom, 1500, 1250, 2500, 2000, NULL, 0, &carried) == (whole ? RV_NO_ROOM : 0u), "room 0: 10");
        hold(carried == whole, "and carried is the whole length");
    }
    hold(rv_ring(map, 3, 0.5, 0.25, -1, out, ROOM, &carried) == RV_BOX_REFUSED && carried == 0, "a radius below 0: 9");
}

/* All leaves of each cluster, children of it, and its tally over all tiles. */
static void walks(const rv_map *map) {
    for (uint8_t zoom = 1; zoom <= 6; zoom++) {
        uint64_t lamps = 0;
        rv_fields e, child;
        for (uint32_t p = 0; rv_entry(map, zoom, p, &e) == 0; p++) {
            uint32_t sum = 0;
            if (e.num == 1)
                continue;
            hold(rv_leaves(map, e.id, e.num, 0, out, ROOM, &carried) == 0 && carried == e.num, "a cluster's leaves are as many as its num");
            hold(rv_children(map, e.id, out, ROOM, &carried) == 0, "rv_children");
            for (size_t i = 0; i < carried; i++)
                sum += rv_entry(map, rv_table_of(map, e.id), out[i], &child) == 0 && child.parent == e.id ? child.num : 0;
            hold(sum == e.num, "the nums of its children come to its own");
            hold(rv_expansion_zoom(map, e.id, &carried) == 0 && carried >= zoom && carried <= 7, "rv_expansion_zoom");
        }
        for (uint32_t x = 0; x < 1u << zoom; x++)
            for (uint32_t y = 0; y < 1u << zoom; y++, lamps += carried)
                hold(rv_tally(map, zoom, x, y, &carried) == 0, "rv_tally");
        hold(lamps == LAMPS, "the tallies of all tiles of a zoom come to the number of lamps");
    }
}

/* Where the column keeps a lamp's owner in the table of a zoom. */
static uint32_t *kept(const rv_map *map, uint8_t zoom, uint32_t lamp) {
    return &map->owners[(map->options.max_zoom + 1u - zoom) * map->count + lamp];
}

/* Each owner is the one that the tables lead to: in the finest the lamp itself, then the entry with the id of the cluster that took its
   last owner in or, if none did, with that owner's own. */
static void owners(const rv_map *map) {
    size_t place;
    for (uint32_t lamp = 0; lamp < LAMPS; lamp++) {
        size_t at = map->starts[7] + lamp;
        hold(*kept(map, 7, lamp) == lamp, "in the finest table a lamp owns itself");
        for (uint8_t zoom = 6; zoom >= 1; zoom--) {
            uint32_t id = map->parent[at] == RV_NO_PARENT ? map->id[at] : map->parent[at];
            at = map->starts[zoom] + *kept(map, zoom, lamp);
            hold(*kept(map, zoom, lamp) < map->lens[zoom] && map->id[at] == id, "the owner is the one that the tables lead to");
        }
        for (int zoom = 0; zoom <= 9; zoom++) {
            hold(rv_owner(map, lamp, (uint8_t)zoom, &place) == 0, "rv_owner");
            hold(place == *kept(map, rv_zoom_used(&map->options, (uint8_t)zoom), lamp), "rv_owner is what the column keeps");
        }
    }
}

/* The num and the energy of each entry are those of the lamps that it owns, and a cluster's leaves are owned by it. */
static void owned(const rv_map *map) {
    for (uint8_t zoom = 1; zoom <= 7; zoom++) {
        rv_fields e;
        for (uint32_t p = 0; rv_entry(map, zoom, p, &e) == 0; p++) {
            uint64_t energy = 0;
            uint32_t lamps = 0;
            size_t place;
            for (uint32_t lamp = 0; lamp < LAMPS; lamp++)
                if (*kept(map, zoom, lamp) == p)
                    lamps += 1, energy += map->energy[map->starts[7] + lamp];
            hold(lamps == e.num && energy == e.energy, "num and energy are those of the owned lamps");
            if (e.num == 1)
                continue;
            hold(rv_leaves(map, e.id, e.num, 0, out, ROOM, &carried) == 0, "rv_leaves");
            for (size_t i = 0; i < carried; i++)
                hold(rv_owner(map, out[i], zoom, &place) == 0 && place == p, "a cluster owns its leaves");
        }
    }
}

static void refused_owners(rv_map map) {
    size_t place = 7;
    uint32_t *one = kept(&map, 3, 5), honest = *one;
    hold(rv_owner(&map, LAMPS, 3, &place) == RV_NO_LAMP && place == 0, "past the lamps: 16, and place 0");
    hold(rv_owner(&map, UINT32_MAX, 3, &place) == RV_NO_LAMP && place == 0, "far past the lamps: 16");
    place = 7;
    map.lens[6] += 1;
    hold(rv_owner(&map, LAMPS, 3, &place) == RV_SPOILED && place == 0, "a spoiled state comes first: 11, and place 0");
    map.lens[6] -= 1;
    place = 7;
    map.room -= 1;
    hold(rv_owner(&map, LAMPS, 3, &place) == RV_SPOILED && place == 0, "a column of owners that is one too short: 11");
    hold(rv_owner(&map, 0, 7, &place) == RV_SPOILED, "whatever is asked of it");
    hold(rv_tally(&map, 0, 0, 0, &carried) == 0, "which the other questions do not look at");
    map.room += 1;
    place = 7;
    *one = map.lens[3];
    hold(rv_owner(&map, 5, 3, &place) == RV_SPOILED && place == 0, "a place that the table lacks: 11");
    hold(rv_owner(&map, 4, 3, &place) == 0 && rv_owner(&map, 5, 4, &place) == 0, "the others are answered");
    *one = map.lens[3] - 1;
    hold(rv_owner(&map, 5, 3, &place) == 0 && place == map.lens[3] - 1, "any place that it has is answered");
    *one = honest;
}

/* rv_load with a column of owners of another length than the rest have. */
static uint32_t load_with(rv_map *map, const double *xs, const double *ys, const uint64_t *energies, size_t n, size_t owners_len) {
    const rv_options *o = &map->options;
    size_t room = map->room;
    return supercluster_load(
        o->min_zoom, o->max_zoom, o->min_points, o->radius, o->extent, o->node_size, o->cartesian, o->min_x, o->min_y, o->max_x, o->max_y,
        o->offset_given, o->offset, o->scale_given, o->scale, o->longitude_strips_only, xs, n, ys, n, energies, n, map->x, room, map->y,
        room, map->seen, room, map->id, room, map->parent, room, map->num, room, map->energy, room, map->ids, room, map->coords, 2 * room,
        map->near, room, map->owners, owners_len, map->starts, map->lens, &carried);
}

/* A build looks at the length of the owners as at that of each other column. What it refuses, and what lies behind, stays. */
static void owners_lent(rv_options options) {
    enum { NEED = 7 * 3, MORE = NEED + 5 };
    static const double xs[] = {1000, 1001, 3000}, outside[] = {1000, 1001, 3001};
    static const uint64_t energies[] = {1, 2, 3}, too_much[] = {1, 2, (1ull << 40) + 1};
    size_t bytes = rv_bytes_needed(MORE);
    unsigned char *memory = (unsigned char *)malloc(bytes), *before = (unsigned char *)malloc(bytes);
    rv_map map, painted;
    memset(&map, 0, sizeof map);
    map.options = options;
    hold(rv_entries_needed(&options, 3) == NEED, "(max_zoom - min_zoom + 2) * n");
    rv_lend(&map, memory, MORE);
    hold(map.seen + MORE == memory + bytes, "the columns fill the memory");
    memset(memory, 0xA5, bytes);
    memcpy(before, memory, bytes);
    painted = map;
    hold(load_with(&map, xs, xs, energies, 3, NEED - 1) == RV_COLUMN_TOO_SHORT && carried == 0, "one place too few: 4");
    hold(load_with(&map, xs, xs, energies, 3, 0) == RV_COLUMN_TOO_SHORT, "no places: 4");
    hold(load_with(&map, xs, xs, too_much, 3, 0) == RV_ENERGY_REFUSED && carried == 2, "15 comes before 4");
    hold(load_with(&map, outside, xs, too_much, 3, 0) == RV_POINT_REFUSED && carried == 2, "3 comes before 15");
    hold(load_with(&map, xs, outside, energies, 3, MORE) == RV_POINT_REFUSED && carried == 2, "3 with room for the owners");
    hold(memcmp(memory, before, bytes) == 0 && memcmp(&map, &painted, sizeof map) == 0, "a refusal writes no column and no state");
    hold(load_with(&map, xs, xs, energies, 3, NEED) == 0, "just as many as are needed");
    hold(memcmp(map.owners + NEED, before, 5 * sizeof *map.owners) == 0, "what lies behind the column stays");
    memset(memory, 0xA5, bytes);
    hold(rv_load(&map, xs, xs, energies, 3, &carried) == 0, "rv_load with more room than is needed");
    hold(memcmp(map.owners + NEED, before, 5 * sizeof *map.owners) == 0, "what lies behind the owners in their column stays");
    for (uint32_t lamp = 0; lamp < 3; lamp++)
        hold(*kept(&map, 7, lamp) == lamp && *kept(&map, 6, lamp) == lamp / 2, "two of the lamps are one cluster");
    free(memory);
    free(before);
}

/* The same lamps with these energies, in memory that is painted before, so that two builds can be compared byte by byte. */
static rv_map with_energies(rv_options options, const uint64_t *energies) {
    size_t bytes = rv_bytes_needed(7 * LAMPS);
    void *memory = malloc(bytes);
    rv_map map;
    if (memory == NULL)
        exit(2);
    memset(memory, 0xA5, bytes);
    memset(&map, 0, sizeof map);
    map.options = options;
    rv_lend(&map, memory, 7 * LAMPS);
    hold(rv_load(&map, given_x, given_y, energies, LAMPS, &carried) == 0, "rv_load");
    return map;
}

/* Whether two builds agree in all columns, what lies behind the tables too, and in their states. */
static bool same(const rv_map *one, const rv_map *other) {
    return one->count == other->count && memcmp(one->starts, other->starts, sizeof one->starts) == 0 &&
        memcmp(one->lens, other->lens, sizeof one->lens) == 0 && memcmp(one->x, other->x, rv_bytes_needed(7 * LAMPS)) == 0;
}

/* After each of many postings the columns are those of a build with the new figures. */
static void posts(rv_options options) {
    static uint64_t energies[LAMPS];
    rv_map map = with_energies(options, given_energy);
    memcpy(energies, given_energy, sizeof energies);
    for (size_t i = 0; i < 100; i++) {
        uint32_t lamp = (uint32_t)(i < 50 ? next_number() % LAMPS : i % 5);
        uint64_t figure = i % 7 == 0 ? 0 : i % 7 == 1 ? 1ull << 40 : next_number() % 1000;
        rv_map fresh;
        hold(rv_post(&map, lamp, figure) == 0, "rv_post");
        energies[lamp] = figure;
        fresh = with_energies(options, energies);
        hold(same(&map, &fresh), "a posting leaves what a build with the new figure does");
        free(fresh.x);
    }
    free(map.x);
}

/* Only the energies of the lamp's owners change, each by as much as the figure does; and two postings may come in either order. */
static void posts_apart(rv_options options) {
    for (uint32_t lamp = 0; lamp < LAMPS; lamp += 7) {
        uint32_t other = (lamp + 1 + (uint32_t)next_number() % (LAMPS - 1)) % LAMPS;
        uint64_t figure = next_number() % 1000, others = next_number() % 1000;
        rv_map map = with_energies(options, given_energy), turned = with_energies(options, given_energy);
        hold(rv_post(&map, lamp, figure) == 0, "rv_post");
        for (uint8_t zoom = 1; zoom <= 7; zoom++)
            for (uint32_t p = 0; p < map.lens[zoom]; p++) {
                uint64_t before = turned.energy[turned.starts[zoom] + p], after = map.energy[map.starts[zoom] + p];
                hold(after == (*kept(&map, zoom, lamp) == p ? before - given_energy[lamp] + figure : before), "an energy after a posting");
            }
        hold(rv_post(&map, other, others) == 0, "the other lamp after this one");
        hold(rv_post(&turned, other, others) == 0 && rv_post(&turned, lamp, figure) == 0, "and before it");
        hold(same(&map, &turned), "two postings give the same in either order");
        free(map.x);
        free(turned.x);
    }
}

/* A posting that is refused with this number, and leaves the map and every byte of its columns. */
static void refuses(rv_map *map, uint32_t lamp, uint64_t figure, uint32_t number, const char *what) {
    size_t bytes = rv_bytes_needed(7 * LAMPS);
    unsigned char *before = (unsigned char *)malloc(bytes);
    rv_map as_it_was = *map;
    if (before == NULL)
        exit(2);
    memcpy(before, map->x, bytes);
    hold(rv_post(map, lamp, figure) == number, what);
    hold(memcmp(before, map->x, bytes) == 0 && memcmp(map, &as_it_was, sizeof *map) == 0, "a refused posting writes nothing");
    free(before);
}

/* rv_post with columns of other lengths. */
static uint32_t post_with(rv_map *map, size_t energy_len, size_t owners_len, uint32_t lamp, uint64_t figure) {
    const rv_options *o = &map->options;
    return supercluster_post(
        o->min_zoom, o->max_zoom, o->min_points, o->radius, o->extent, o->node_size, o->cartesian, o->min_x, o->min_y, o->max_x, o->max_y,
        o->offset_given, o->offset, o->scale_given, o->scale, o->longitude_strips_only, map->count, map->starts, map->lens, map->energy,
        energy_len, map->owners, owners_len, lamp, figure);
}

/* Refused by the state, the lamp and the figure, in this order. */
static void refused_posts(rv_options options) {
    const uint64_t too_much = (1ull << 40) + 1;
    rv_map map = with_energies(options, given_energy), fresh = with_energies(options, given_energy);
    size_t end = map.starts[1] + map.lens[1];
    refuses(&map, LAMPS, 5, RV_NO_LAMP, "past the lamps: 16");
    refuses(&map, UINT32_MAX, 5, RV_NO_LAMP, "far past the lamps: 16");
    refuses(&map, LAMPS, too_much, RV_NO_LAMP, "16 comes before 15");
    refuses(&map, 0, too_much, RV_ENERGY_REFUSED, "2^40 + 1: 15");
    refuses(&map, LAMPS - 1, UINT64_MAX, RV_ENERGY_REFUSED, "the largest number: 15");
    map.lens[6] += 1;
    refuses(&map, LAMPS, too_much, RV_SPOILED, "a spoiled state comes first: 11");
    map.lens[6] -= 1;
    map.room -= 1;
    refuses(&map, LAMPS, too_much, RV_SPOILED, "owners one too short: 11");
    refuses(&map, 0, given_energy[0], RV_SPOILED, "whatever is posted");
    map.room += 1;
    hold(post_with(&map, end - 1, 7 * LAMPS, 0, 5) == RV_SPOILED, "energies that end before the last table does: 11");
    hold(post_with(&map, end, 7 * LAMPS - 1, 0, 5) == RV_SPOILED, "owners one too short, energies long enough: 11");
    hold(same(&map, &fresh), "and nothing written");
    hold(post_with(&map, end, 7 * LAMPS, 0, given_energy[0]) == 0, "both just long enough");
    hold(same(&map, &fresh), "the figure that a lamp has changes nothing");
    free(map.x);
    free(fresh.x);
}

/* Refused by an owner or its energy, once the lamp and the figure are taken; the others of the lamp are not written either. */
static void refused_by_owners(rv_options options) {
    rv_map map = with_energies(options, given_energy), fresh = with_energies(options, given_energy);
    uint32_t *one = kept(&map, 3, 5), *own = kept(&map, 7, 5), honest = *one;
    uint64_t *sum = &map.energy[map.starts[1] + *kept(&map, 1, 5)], whole;
    hold(rv_post(&map, 5, 10) == 0, "rv_post");
    whole = *sum;
    *one = map.lens[3];
    refuses(&map, 5, 11, RV_SPOILED, "an owner past its table: 11");
    refuses(&map, 5, (1ull << 40) + 1, RV_ENERGY_REFUSED, "15 comes before it");
    *one = UINT32_MAX;
    refuses(&map, 5, 11, RV_SPOILED, "far past its table: 11");
    *one = honest;
    *own = 6;
    refuses(&map, 5, 11, RV_SPOILED, "another lamp in the finest table: 11");
    refuses(&map, LAMPS, 11, RV_NO_LAMP, "16 comes before it");
    *own = 5;
    *sum = 9;
    refuses(&map, 5, 11, RV_SPOILED, "an energy below the lamp's old figure: 11");
    refuses(&map, 5, 0, RV_SPOILED, "whatever the new one is");
    *sum = 10;
    hold(rv_post(&map, 5, 11) == 0 && *sum == 11, "one that is just as large");
    *sum = UINT64_MAX;
    refuses(&map, 5, 12, RV_SPOILED, "an energy that would pass 64 bits: 11");
    hold(rv_post(&map, 5, 11) == 0 && *sum == UINT64_MAX, "the largest that there is");
    hold(rv_post(&map, 5, 0) == 0 && *sum == UINT64_MAX - 11, "a smaller one");
    *sum = whole - 10;
    hold(rv_post(&map, 5, given_energy[5]) == 0 && same(&map, &fresh), "mended again, and posted back: what was built");
    free(map.x);
    free(fresh.x);
}

static void ranges(const rv_options *o) {
    for (int v = 0; v <= 4000; v += 125) {
        hold(rv_normalize(o, v) == (v - 1000.0) / 2000.0, "rv_normalize");
        hold(rv_denormalize(o, rv_normalize(o, v)) == v, "rv_denormalize gives it back");
    }
    hold(isnan(rv_normalize(o, NAN)), "NaN stays NaN");
}

/* The index alone: both searches against every point, and each by steps. */
static void indexes(void) {
    static double xs[LAMPS], ys[LAMPS], coords[2 * LAMPS];
    static uint32_t ids[LAMPS];
    rv_index index = {4, 0, LAMPS, ids, coords};
    rv_map as_table;
    size_t slot, i = 0;
    for (size_t p = 0; p < LAMPS; p++) {
        xs[p] = (double)(next_number() % 65537) / 65536;
        ys[p] = (double)(next_number() % 65537) / 65536;
    }
    memset(&as_table, 0, sizeof as_table);
    as_table.x = xs;
    as_table.y = ys;
    as_table.lens[0] = LAMPS;
    hold(rv_index_range(&index, 0, 0, 1, 1, out, ROOM, &carried) == RV_SPOILED, "no index yet: 11");
    hold(rv_index_build(&index, xs, ys, LAMPS, &carried) == 0 && index.n == LAMPS, "rv_index_build");
    hold(rv_index_range(&index, 0.25, 0.125, 0.75, 0.5, out, ROOM, &carried) == 0, "rv_index_range");
    hold(lists(&as_table, 0, carried, in_box), "a search by a box");
    hold(rv_index_range_first(&index, 0.25, 0.125, 0.75, 0.5, &slot) == 0, "rv_index_range_first");
    for (; slot != SIZE_MAX; i++) {
        hold(i < carried && ids[slot] == out[i], "the same by steps");
        hold(rv_index_range_after(&index, 0.25, 0.125, 0.75, 0.5, slot, &slot) == 0, "rv_index_range_after");
    }
    hold(i == carried, "as many by steps");
    hold(rv_index_within(&index, 0.5, 0.25, 0.25, out, ROOM, &carried) == 0, "rv_index_within");
    hold(lists(&as_table, 0, carried, in_ring), "a search by a ring");
    hold(rv_index_within_first(&index, 0.5, 0.25, 0.25, &slot) == 0, "rv_index_within_first");
    for (i = 0; slot != SIZE_MAX; i++) {
        hold(i < carried && ids[slot] == out[i], "the same by steps");
        hold(rv_index_within_after(&index, 0.5, 0.25, 0.25, slot, &slot) == 0, "rv_index_within_after");
    }
    hold(i == carried, "as many by steps");
}

/* Each number has words of its own; a map of zeros is refused, and a refused build leaves the map. */
static void words_and_refusals(rv_map map) {
    static const uint32_t numbers[] = {0, 1, 2, 3, 4, 5, 6, 7, 8, 9, 10, 11, 15, 16, 17}, none_of_ours[] = {12, 13, 14, 17, UINT32_MAX};
    double far_away[] = {999};
    uint64_t none[] = {0};
    rv_map empty, before = map;
    for (size_t i = 0; i < sizeof numbers / sizeof *numbers; i++)
        for (size_t j = 0; j < i; j++)
            hold(strcmp(rv_words(numbers[i]), rv_words(numbers[j])) != 0, "words of their own");
    for (size_t i = 0; i < sizeof none_of_ours / sizeof *none_of_ours; i++)
        hold(strcmp(rv_words(none_of_ours[i]), "no number of a reply") == 0, "no words for what no call answers");
    memset(&empty, 0, sizeof empty);
    hold(rv_box(&empty, 0, 0, 0, 1, 1, out, ROOM, &carried) == RV_SPOILED, "a map of zeros: 11");
    hold(rv_owner(&empty, 0, 0, &carried) == RV_SPOILED && carried == 0, "a map of zeros: 11");
    hold(rv_post(&empty, 0, 0) == RV_SPOILED, "a map of zeros: 11");
    hold(rv_load(&empty, NULL, NULL, NULL, 0, &carried) == RV_OPTIONS_REFUSED, "a map of zeros: 1");
    hold(rv_load(&map, NULL, NULL, NULL, 0, &carried) == RV_COUNT_REFUSED, "no points: 2");
    hold(rv_load(&map, far_away, far_away, none, 1, &carried) == RV_POINT_REFUSED && carried == 0, "outside the plan: 3");
    hold(memcmp(&map, &before, sizeof map) == 0 && rv_tally(&map, 0, 0, 0, &carried) == 0 && carried == LAMPS, "the map is as it was");
}

int main(void) {
    rv_map map = plan();
    entries(&map);
    refused_entries(map);
    searches(&map);
    walks(&map);
    owners(&map);
    owned(&map);
    refused_owners(map);
    owners_lent(map.options);
    ranges(&map.options);
    indexes();
    posts(map.options);
    posts_apart(map.options);
    refused_posts(map.options);
    refused_by_owners(map.options);
    words_and_refusals(map);
    free(map.x);
    printf("short names in C: %ld checks, %ld wrong\n", checks, wrong);
    return wrong ? 1 : 0;
}
