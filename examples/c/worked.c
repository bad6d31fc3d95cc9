/* Asks the worked example of docs/SCOPE.md through reachvolem.h: a line for each row, 'ok' where the answer is the page's. Exit status 0
   only where all are right. */
#include <stdarg.h>
#include <stdio.h>
#include <stdlib.h>
#include <string.h>

#include "reachvolem.h"

enum { ROOM = 64 };

static char said[1024];
static int wrong;
static int rows;

/* Puts words behind what is said so far. */
static void say(const char *format, ...) {
    size_t length = strlen(said);
    va_list words;
    va_start(words, format);
    vsnprintf(said + length, sizeof said - length, format, words);
    va_end(words);
}

/* A row: what is asked, and what the page has. What was said is compared with it. */
static void row(const char *asked, const char *page) {
    int same = strcmp(said, page) == 0;
    printf("%s %s: %s\n", same ? "ok   " : "WRONG", asked, said);
    if (!same)
        printf("      the page has: %s\n", page);
    rows += 1;
    wrong += !same;
    said[0] = 0;
}

/* Says a refusal; whether there was none. */
static int answered(uint32_t number) {
    if (number != 0)
        say("refused %u", number);
    return number == 0;
}

static void say_list(uint32_t number, const uint32_t *out, size_t count) {
    if (!answered(number))
        return;
    for (size_t i = 0; i < count; i++)
        say(i ? ",%u" : "%u", out[i]);
    if (count == 0)
        say("nothing");
}

static void say_children(const rv_map *map, uint32_t id) {
    uint32_t out[ROOM];
    size_t count;
    uint32_t number = rv_children(map, id, out, ROOM, &count);
    say_list(number, out, count);
}

static void say_leaves(const rv_map *map, uint32_t id, uint32_t limit, uint32_t offset) {
    uint32_t out[ROOM];
    size_t count;
    uint32_t number = rv_leaves(map, id, limit, offset, out, ROOM, &count);
    say_list(number, out, count);
}

static void say_expansion_zoom(const rv_map *map, uint32_t id) {
    size_t zoom;
    if (answered(rv_expansion_zoom(map, id, &zoom)))
        say("%zu", zoom);
}

static void say_tile(const rv_map *map, uint8_t z, uint32_t x, uint32_t y) {
    uint32_t places[ROOM];
    int64_t px[ROOM], py[ROOM];
    size_t count;
    if (!answered(rv_tile(map, z, x, y, places, px, py, ROOM, &count)))
        return;
    for (size_t i = 0; i < count; i++)
        say("%s%u at (%lld,%lld)", i ? ", " : "", places[i], (long long)px[i], (long long)py[i]);
}

/* The options of the worked example. */
static rv_options worked_options(void) {
    rv_options o;
    memset(&o, 0, sizeof o);
    o.max_zoom = 1;
    o.min_points = 2;
    o.radius = 64;
    o.extent = 512;
    o.node_size = 64;
    o.cartesian = true;
    o.max_x = o.max_y = 1;
    o.offset_given = o.scale_given = true;
    o.scale = 1;
    return o;
}

/* A build, in memory of its own, which the caller frees by map.x. The number is left in *number. */
static rv_map built(rv_options o, const double *xs, const double *ys, const uint64_t *energies, size_t n, uint32_t *number) {
    size_t entries = rv_entries_needed(&o, n), carried;
    void *memory = malloc(rv_bytes_needed(entries) + 1);
    rv_map map;
    if (memory == NULL)
        exit(2);
    memset(&map, 0, sizeof map);
    map.options = o;
    rv_lend(&map, memory, entries);
    *number = rv_load(&map, xs, ys, energies, n, &carried);
    return map;
}

/* The four lamps of the worked example, with these options. */
static rv_map four_lamps(rv_options o, uint32_t *number) {
    static const double xs[] = {16384 / 65536.0, 20480 / 65536.0, 26624 / 65536.0, 26624 / 65536.0};
    static const double ys[] = {0.5, 0.5, 0.5, 0.5};
    static const uint64_t energies[] = {10, 20, 30, 40};
    return built(o, xs, ys, energies, 4, number);
}

/* A line of the lister. */
static void line(const rv_map *map, uint8_t zoom, uint32_t place, const char *page) {
    rv_fields e;
    char asked[64];
    uint64_t x, y;
    if (answered(rv_entry(map, zoom, place, &e))) {
        memcpy(&x, &e.x, sizeof x);
        memcpy(&y, &e.y, sizeof y);
        say("%016llx %016llx ", (unsigned long long)x, (unsigned long long)y);
        say(e.seen == RV_NEVER_SEEN ? "- " : "%u ", e.seen);
        say("%u ", e.id);
        say(e.parent == RV_NO_PARENT ? "- " : "%u ", e.parent);
        say("%u %llu", e.num, (unsigned long long)e.energy);
    }
    snprintf(asked, sizeof asked, "table %u, place %u", zoom, place);
    row(asked, page);
}

static void tables(const rv_map *map) {
    line(map, 2, 0, "3fd0000000000000 3fe0000000000000 1 0 6 1 10");
    line(map, 2, 1, "3fd4000000000000 3fe0000000000000 1 1 6 1 20");
    line(map, 2, 2, "3fda000000000000 3fe0000000000000 1 2 70 1 30");
    line(map, 2, 3, "3fda000000000000 3fe0000000000000 1 3 70 1 40");
    line(map, 1, 0, "3fd2000000000000 3fe0000000000000 0 6 5 2 30");
    line(map, 1, 1, "3fda000000000000 3fe0000000000000 0 70 5 2 70");
    line(map, 0, 0, "3fd6000000000000 3fe0000000000000 - 5 - 4 100");
    line(map, 2, 4, "refused 6");
    line(map, 1, 2, "refused 6");
    line(map, 0, 1, "refused 6");
    line(map, 3, 0, "refused 5");
}

/* The owners of the lamps first to last, in the table of the zoom used. */
static void say_owners(const rv_map *map, uint8_t zoom, uint32_t first, uint32_t last) {
    for (uint32_t lamp = first; lamp <= last; lamp++) {
        size_t place;
        uint32_t number = rv_owner(map, lamp, zoom, &place);
        say(lamp > first ? "," : "");
        if (answered(number))
            say("%zu", place);
    }
}

static void owners(const rv_map *map) {
    for (uint8_t zoom = 3; zoom-- > 0; say(zoom ? "; " : ""))
        say_owners(map, zoom, 0, 3);
    row("owners of the lamps 0 to 3 in table 2; 1; 0", "0,1,2,3; 0,0,1,1; 0,0,0,0");
    say_owners(map, 255, 0, 3);
    row("at zoom 255, which table 2 answers", "0,1,2,3");
    say_owners(map, 0, 4, 4);
    row("owner of lamp 4", "refused 16");
    say_list(0, map->owners, 12);
    row("the column of owners", "0,1,2,3,0,0,1,1,0,0,0,0");
}

/* The energies of all tables, the finest first. */
static void say_energies(const rv_map *map) {
    for (uint8_t zoom = 3; zoom-- > 0; say(zoom ? "; " : ""))
        for (uint32_t place = 0; place < map->lens[zoom]; place++)
            say(place ? ",%llu" : "%llu", (unsigned long long)map->energy[map->starts[zoom] + place]);
}

/* A posting, and the energies that it leaves. */
static void post(rv_map *map, uint32_t lamp, uint64_t figure, const char *asked, const char *page) {
    if (!answered(rv_post(map, lamp, figure)))
        say("; ");
    say_energies(map);
    row(asked, page);
}

static void posts(void) {
    const uint64_t most = (uint64_t)1 << 40;
    uint32_t number;
    rv_map map = four_lamps(worked_options(), &number);
    answered(number);
    post(&map, 1, 25, "post 25 to lamp 1: the energies of table 2; 1; 0", "10,25,30,40; 35,70; 105");
    owners(&map);
    post(&map, 4, 25, "post 25 to lamp 4", "refused 16; 10,25,30,40; 35,70; 105");
    post(&map, 1, most + 1, "post 2^40 + 1 to lamp 1", "refused 15; 10,25,30,40; 35,70; 105");
    post(&map, 4, most + 1, "post 2^40 + 1 to lamp 4", "refused 16; 10,25,30,40; 35,70; 105");
    post(&map, 3, most, "post 2^40 to lamp 3", "10,25,30,1099511627776; 35,1099511627806; 1099511627841");
    post(&map, 1, 20, "post 20 to lamp 1", "10,20,30,1099511627776; 30,1099511627806; 1099511627836");
    post(&map, 3, 40, "post 40 to lamp 3: what was built", "10,20,30,40; 30,70; 100");
    post(&map, 1, 20, "post 20 to lamp 1 once more", "10,20,30,40; 30,70; 100");
    tables(&map);
    free(map.x);
}

static void ids_and_walks(const rv_map *map) {
    say("origin %u, table %u; origin %u, table %u", rv_origin_of(map, 70), rv_table_of(map, 70), rv_origin_of(map, 5),
        rv_table_of(map, 5));
    row("id 70; id 5", "origin 2, table 2; origin 0, table 1");
    say_children(map, 5);
    row("children of 5", "0,1");
    say_leaves(map, 5, 10, 0);
    say("; ");
    say_leaves(map, 5, 3, 1);
    row("leaves of 5: limit 10, offset 0; limit 3, offset 1", "0,1,2,3; 1,2,3");
    say_leaves(map, 5, 0, 0);
    say("; ");
    say_leaves(map, 5, 0, 1);
    row("limit 0: offset 0; 1", "nothing; nothing");
    for (uint32_t offset = 0; offset <= 6; offset += 3) {
        say_leaves(map, 5, 3, offset);
        say(offset < 6 ? "; " : "");
    }
    row("limit 3: offset 0; 3; 6", "0,1,2; 3; nothing");
    say_expansion_zoom(map, 5);
    say("; ");
    say_expansion_zoom(map, 6);
    row("expansion zoom of 5; of 6", "1; 2");
}

static void refused_walks(const rv_map *map) {
    static const uint32_t ids[] = {3, 4, 134, 7};
    for (size_t i = 0; i < 4; i++) {
        say_children(map, ids[i]);
        say("; ");
        say_leaves(map, ids[i], 10, 0);
        say("; ");
        say_expansion_zoom(map, ids[i]);
        say(i < 3 ? "; " : "");
    }
    row("children; leaves; expansion zoom of 3; 4; 134; 7",
        "refused 6; refused 6; refused 6; refused 6; refused 6; refused 6; refused 6; refused 6; refused 6; "
        "refused 5; refused 5; refused 5");
}

static void tile_and_box(const rv_map *map) {
    uint32_t out[ROOM];
    size_t carried;
    uint32_t number;
    say_tile(map, 0, 0, 0);
    row("tile (0,0,0)", "0 at (176,256)");
    if (answered(rv_tally(map, 0, 0, 0, &carried)))
        say("%zu", carried);
    row("its tally", "4");
    number = rv_box(map, 2, 0.3, 0, 0.45, 1, out, ROOM, &carried);
    say_list(number, out, carried);
    row("box (2, 0.3, 0, 0.45, 1)", "1,2,3");
}

/* A lamp in the middle of a tile of extent 1 stands at 0.5; seen from the far side, at -0.5. */
static void rounding(void) {
    static const double half[] = {0.5};
    static const uint64_t none[] = {0};
    rv_options o = worked_options();
    uint32_t number, places[ROOM];
    int64_t px[ROOM], py[ROOM];
    size_t count;
    rv_map map;
    o.extent = 1;
    o.radius = 0.5;
    map = built(o, half, half, none, 1, &number);
    if (answered(number) && answered(rv_tile(&map, 0, 0, 0, places, px, py, ROOM, &count)) && count > 1)
        say("%lld; %lld", (long long)px[0], (long long)px[1]);
    row("0.5; -0.5 rounded", "1; -1");
    free(map.x);
}

static void say_build(rv_options o) {
    uint32_t number;
    rv_map map = four_lamps(o, &number);
    if (answered(number))
        say("built");
    free(map.x);
}

static void other_options(void) {
    rv_options o = worked_options();
    o.max_zoom = 30;
    say_build(o);
    say("; ");
    o.max_zoom = 31;
    say_build(o);
    say("; ");
    o.max_zoom = 1;
    o.node_size = 0;
    say_build(o);
    row("max_zoom 30; 31; node_size 0", "built; refused 1; refused 1");
}

static void three_at_least(void) {
    rv_options o = worked_options();
    uint32_t number;
    rv_map map;
    o.min_points = 3;
    map = four_lamps(o, &number);
    answered(number);
    for (uint8_t zoom = 0; zoom <= 2; zoom++) {
        rv_fields e;
        for (uint32_t place = 0; rv_entry(&map, zoom, place, &e) == 0; place++)
            say(place ? ",%u x %u" : "%u x %u", e.id, e.num);
        say(zoom < 2 ? "; " : "");
    }
    row("min_points 3: ids x num of all tables", "0 x 1,1 x 1,2 x 1,3 x 1; 0 x 1,1 x 1,2 x 1,3 x 1; 0 x 1,1 x 1,2 x 1,3 x 1");
    free(map.x);
}

/* The tiles of lamps at these x and y 0.5, with and without strips on a plan. */
static void lonely(const double *xs, size_t n, uint8_t z, const char *asked, const char *page) {
    static const double ys[] = {0.5, 0.5};
    static const uint64_t none[] = {0, 0};
    for (int only = 0; only <= 1; only++) {
        rv_options o = worked_options();
        uint32_t number;
        rv_map map;
        o.longitude_strips_only = only;
        map = built(o, xs, ys, none, n, &number);
        if (answered(number))
            say_tile(&map, z, 0, 0);
        say(only ? "" : "; longitude_strips_only: ");
        free(map.x);
    }
    row(asked, page);
}

/* Lamps at two edges stay two at zoom 0, so the tile lists both. */
static void at_the_edges(void) {
    static const double east[] = {1};
    static const double both[] = {0, 1};
    lonely(east, 1, 0, "a lamp alone at (1, 0.5), its tile (0,0,0)", "0 at (512,256), 0 at (0,256); longitude_strips_only: 0 at (512,256)");
    lonely(east, 1, 1, "its tile (1,0,0)", "0 at (0,512); longitude_strips_only: refused 8");
    lonely(both, 2, 0, "lamps at (0, 0.5) and (1, 0.5), their tile (0,0,0)",
        "0 at (0,256), 1 at (512,256), 1 at (0,256), 0 at (512,256); longitude_strips_only: 0 at (0,256), 1 at (512,256)");
}

static void effort(const rv_map *map, size_t allowance, size_t room, const char *asked, const char *page) {
    uint32_t out[ROOM];
    size_t tested, items;
    bool stopped;
    uint32_t number = rv_box_effort(map, 2, -180.00000000000006, 0, -170, 1, allowance, out, room, &tested, &stopped, &items);
    if (number == RV_NO_ROOM)
        say("refused 10: %zu items", items);
    else
        say_list(number, out, items);
    say("; %zu tested, %s", tested, stopped ? "stopped" : "not stopped");
    row(asked, page);
}

static void efforts(void) {
    static const double longitudes[] = {-180, -170, 0, 170, 180};
    static const double ys[] = {0.5, 0.5, 0.5, 0.5, 0.5};
    static const uint64_t none[] = {0, 0, 0, 0, 0};
    rv_options o = worked_options();
    uint32_t number;
    rv_map map;
    o.cartesian = false;
    o.node_size = 1;
    map = built(o, longitudes, ys, none, 5, &number);
    answered(number);
    effort(&map, 6, ROOM, "effort, allowance 6", "2,3,4,0,1; 6 tested, stopped");
    effort(&map, 7, ROOM, "effort, allowance 7", "2,3,4,0,1,0; 7 tested, stopped");
    effort(&map, 8, ROOM, "effort, allowance 8", "2,3,4,0,1,0,1; 8 tested, not stopped");
    effort(&map, 8, 6, "effort, allowance 8, a column of six", "refused 10: 7 items; 8 tested, not stopped");
    free(map.x);
}

int main(void) {
    uint32_t number;
    rv_map map = four_lamps(worked_options(), &number);
    answered(number);
    tables(&map);
    owners(&map);
    posts();
    ids_and_walks(&map);
    refused_walks(&map);
    tile_and_box(&map);
    rounding();
    other_options();
    three_at_least();
    at_the_edges();
    efforts();
    free(map.x);
    printf("worked example in C: %d rows, %d wrong\n", rows, wrong);
    return wrong ? 1 : 0;
}
