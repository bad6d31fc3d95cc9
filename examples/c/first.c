#include <stdio.h>
#include <stdlib.h>
#include "reachvolem.h"
int main(void) {
    double lng[] = {4.89, 4.9, 13.4}, y[] = {0.33, 0.33, 0.32}; /* degrees; mercator, from 0 in the north to 1 */
    uint64_t wh[] = {120, 80, 95};
    rv_map map = {.options = {.max_zoom = 16, .min_points = 2, .radius = 40, .extent = 512, .node_size = 64}};
    size_t n = rv_entries_needed(&map.options, 3), k;
    uint32_t places[3], number;
    rv_fields e;
    rv_lend(&map, malloc(rv_bytes_needed(n)), n);
    number = rv_load(&map, lng, y, wh, 3, &k);
    if (number == 0) number = rv_box(&map, 5, -180, 0, 180, 1, places, 3, &k);
    for (puts(rv_words(number)); number == 0 && k-- > 0;) rv_entry(&map, 5, places[k], &e), printf("%u lamps\n", e.num);
}
