/* Points against a polygon that GEOS has prepared:

       bands FILE POLYGON       prints the offset of each point of a file of Well-Known Text that intersects the polygon, and
                                tells on the error output how many seconds that loop of tests took
       bands made COUNT EDGES   prints how many of the points that crates/bench_band makes intersect its ring */
#include "features.h"
#include <string.h>
#include <time.h>

#define SHAPES 16384

static uint64_t seed = 20;

static uint64_t coordinate(void) {
    seed = seed * 6364136223846793005u + 1442695040888963407u;
    return seed >> 44;
}

static void set(GEOSCoordSequence *ring, unsigned at, uint64_t x, uint64_t y) {
    GEOSCoordSeq_setXY(ring, at, (double)(x % 1048576), (double)(y % 1048576));
}

/* A position on a square that stands on its corner, `t` of `of` parts of the way round it, moved inwards. */
static void set_on_square(GEOSCoordSequence *ring, unsigned at, uint64_t t, uint64_t of, uint64_t inwards) {
    uint64_t half = 524287, side = t * 4 / of, a = t * 4 * half / of - side * half, b = half - a;
    uint64_t right = half - inwards, left = half + inwards;
    if (side == 0) set(ring, at, right + b, half + a);
    else if (side == 1) set(ring, at, left - a, half + b);
    else if (side == 2) set(ring, at, left - b, half - a);
    else set(ring, at, right + a, half - b);
}

static GEOSGeometry *made_polygon(uint64_t edges) {
    GEOSCoordSequence *ring = GEOSCoordSeq_create((unsigned)edges + 1, 2);
    set_on_square(ring, 0, 0, edges, 0);
    for (uint64_t t = 1; t < edges; t++) set_on_square(ring, (unsigned)t, t, edges, coordinate() % 4096);
    set_on_square(ring, (unsigned)edges, 0, edges, 0);
    return GEOSGeom_createPolygon(GEOSGeom_createLinearRing(ring), NULL, 0);
}

static void count_made(uint64_t count, uint64_t edges) {
    const GEOSPreparedGeometry *kept = GEOSPrepare(made_polygon(edges));
    static GEOSGeometry *points[SHAPES];
    for (int i = 0; i < SHAPES; i++) {
        double x = (double)coordinate();
        points[i] = GEOSGeom_createPointFromXY(x, (double)coordinate());
    }
    /* the first test makes GEOS's index, which is no part of the loop */
    GEOSPreparedIntersects(kept, points[0]);
    uint64_t found = 0;
    for (uint64_t round = 0; round < count / SHAPES; round++)
        for (int i = 0; i < SHAPES; i++) found += GEOSPreparedIntersects(kept, points[i]) == 1;
    print_number(found, '\n');
}

static double seconds(void) {
    struct timespec now;
    clock_gettime(CLOCK_MONOTONIC, &now);
    return (double)now.tv_sec + 1e-9 * (double)now.tv_nsec;
}

static void print_meeting(Features points, const char *text) {
    GEOSWKTReader *reader = GEOSWKTReader_create();
    const GEOSPreparedGeometry *kept = GEOSPrepare(read_text(reader, text));
    char *meets = calloc(points.count + 1, 1);
    double begun = seconds();
    for (size_t i = 0; i < points.count; i++) meets[i] = GEOSPreparedIntersects(kept, points.items[i].geometry) == 1;
    fprintf(stderr, "%.6f\n", seconds() - begun);
    for (size_t i = 0; i < points.count; i++)
        if (meets[i]) print_number(points.items[i].offset, '\n');
}

int main(int count, char **words) {
    initGEOS(tell, tell);
    if (count == 4 && !strcmp(words[1], "made")) count_made(strtoull(words[2], NULL, 10), strtoull(words[3], NULL, 10));
    else if (count == 3) print_meeting(read_features(words[1]), words[2]);
    else return 2;
    return 0;
}
