/* Measures how much stack each call takes: it runs on a thread whose stack is painted before, and what the call has painted over is
   counted, less what a thread takes that calls nothing. Builds are the deepest that there are: a million points in an index of
   node_size 1, and 31 clusters one in the other. Exit status 0 only where each call stays within the bytes that reachvolem.h names. */
#define _POSIX_C_SOURCE 200809L
#include <pthread.h>
#include <stdio.h>
#include <stdlib.h>
#include <string.h>

#include "reachvolem.h"

enum { STACK = 1 << 20, PAINT = 0xA5, MOST = 1048576, CHAIN = 32, ROOM = 64 };

static double xs[MOST], ys[MOST];
static uint64_t energies[MOST];
static rv_map map;
static rv_index index_alone;
static uint32_t out[MOST];
static int64_t px[ROOM], py[ROOM];
static size_t carried;
static size_t idle;
static uint32_t number;
static uint32_t deepest;
static int wrong;

static void nothing(void) { number = 0; }
static void load(void) { number = rv_load(&map, xs, ys, energies, MOST, &carried); }
static void box(void) { number = rv_box(&map, 31, 0, 0, 1, 1, out, MOST, &carried); }
static void ring(void) { number = rv_ring(&map, 31, 0.5, 0.5, 1, out, MOST, &carried); }
static void build(void) { number = rv_index_build(&index_alone, xs, ys, MOST, &carried); }
static void range(void) { number = rv_index_range(&index_alone, 0, 0, 1, 1, out, MOST, &carried); }
static void within(void) { number = rv_index_within(&index_alone, 0.5, 0.5, 1, out, MOST, &carried); }
static void first(void) { number = rv_index_within_first(&index_alone, 0.5, 0.5, 0, &carried); }
static void after(void) { number = rv_index_range_after(&index_alone, 0, 0, 1, 1, MOST / 3, &carried); }
static void chain(void) { number = rv_load(&map, xs, ys, energies, CHAIN, &carried); }
static void children(void) { number = rv_children(&map, deepest, out, ROOM, &carried); }
static void leaves(void) { number = rv_leaves(&map, deepest, CHAIN, 0, out, ROOM, &carried); }
static void expansion(void) { number = rv_expansion_zoom(&map, deepest, &carried); }
static void tile(void) { number = rv_tile(&map, 0, 0, 0, out, px, py, ROOM, &carried); }
static void tally(void) { number = rv_tally(&map, 0, 0, 0, &carried); }
static void owner(void) { number = rv_owner(&map, CHAIN - 1, 0, &carried); }
static void post(void) { number = rv_post(&map, CHAIN - 1, 1); }

static void effort(void) {
    size_t tested;
    bool stopped;
    number = rv_box_effort(&map, 31, 0, 0, 1, 1, MOST, out, MOST, &tested, &stopped, &carried);
}

static void entry(void) {
    rv_fields e;
    number = rv_entry(&map, 1, 0, &e);
}

static void *run(void *call) {
    (*(void (**)(void))call)();
    return NULL;
}

/* How many bytes of its stack a thread writes that makes this call. */
static size_t taken(void (*call)(void)) {
    static _Alignas(4096) unsigned char stack[STACK];
    pthread_attr_t attributes;
    pthread_t thread;
    size_t clean = 0;
    memset(stack, PAINT, STACK);
    if (pthread_attr_init(&attributes) || pthread_attr_setstack(&attributes, stack, STACK))
        exit(2);
    if (pthread_create(&thread, &attributes, run, &call) || pthread_join(thread, NULL))
        exit(2);
    pthread_attr_destroy(&attributes);
    while (clean < STACK && stack[clean] == PAINT)
        clean += 1;
    return STACK - clean;
}

/* Measures a call and holds it to its bound; it has to be answered, too. */
static void measure(const char *name, void (*call)(void), size_t most) {
    size_t bytes = taken(call);
    bytes = bytes > idle ? bytes - idle : 0;
    printf("%-18s %6zu bytes of stack, at most %zu%s\n", name, bytes, most, bytes > most ? ": TOO MUCH" : number ? ": REFUSED" : "");
    wrong += bytes > most || number != 0;
}

static void lend(uint8_t max_zoom, size_t n) {
    size_t entries;
    memset(&map, 0, sizeof map);
    map.options = (rv_options){.max_zoom = max_zoom, .min_points = 2, .radius = 64, .extent = 512, .node_size = 1, .cartesian = true};
    map.options.max_x = map.options.max_y = 1;
    entries = rv_entries_needed(&map.options, n);
    rv_lend(&map, malloc(rv_bytes_needed(entries)), entries);
    if (map.x == NULL)
        exit(2);
}

/* A million points on a grid, no cluster among them. */
static void a_million(void) {
    for (size_t i = 0; i < MOST; i++) {
        xs[i] = (double)(i % 1024) / 1024;
        ys[i] = (double)(i / 1024) / 1024;
    }
    index_alone = (rv_index){1, 0, MOST, malloc(MOST * sizeof(uint32_t)), malloc(2 * MOST * sizeof(double))};
    lend(0, MOST);
    map.options.radius = 0;
    measure("load", load, RV_STACK);
    measure("box", box, RV_STACK);
    measure("box_effort", effort, RV_STACK);
    measure("ring", ring, RV_STACK);
    measure("tally", tally, RV_STACK_TALLY);
    measure("entry", entry, RV_STACK);
    measure("owner", owner, RV_STACK);
    measure("post", post, RV_STACK);
    measure("index_build", build, RV_STACK);
    measure("index_range", range, RV_STACK);
    measure("index_within", within, RV_STACK);
    measure("index_within_first", first, RV_STACK);
    measure("index_range_after", after, RV_STACK);
    free(map.x);
    free(index_alone.ids);
    free(index_alone.coords);
}

/* At each zoom, from the largest on, one lamp more comes within the radius of the cluster. */
static void a_chain(void) {
    double centre = 0.25, reach = 64.0 / 512;
    for (int zoom = 30; zoom >= 0; zoom--)
        reach /= 2;
    xs[0] = centre;
    for (size_t i = 1; i < CHAIN; i++) {
        reach *= 2;
        xs[i] = centre + 0.9 * reach;
        centre = (centre * (double)i + xs[i]) / (double)(i + 1);
    }
    for (size_t i = 0; i < CHAIN; i++)
        ys[i] = 0.5;
    lend(30, CHAIN);
    measure("load", chain, RV_STACK);
    deepest = map.id[map.starts[0]];
    if (map.lens[0] != 1 || map.lens[30] != CHAIN - 1)
        wrong += 1, puts("the lamps are no chain of clusters");
    measure("children", children, RV_STACK);
    measure("leaves", leaves, RV_STACK_LEAVES);
    measure("expansion_zoom", expansion, RV_STACK);
    measure("tile", tile, RV_STACK);
    measure("tally", tally, RV_STACK_TALLY);
    measure("owner", owner, RV_STACK);
    measure("post", post, RV_STACK);
    free(map.x);
}

int main(void) {
    taken(nothing);
    idle = taken(nothing);
    a_million();
    a_chain();
    printf("stack of C calls: %d wrong\n", wrong);
    return wrong ? 1 : 0;
}
