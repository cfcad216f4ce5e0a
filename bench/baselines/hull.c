/* The corners of the hull of random positions, by GEOS: `hull hull COUNT` counts them, `hull positions COUNT` only makes the
   positions and counts those. */
#include <geos_c.h>
#include <stdarg.h>
#include <stdint.h>
#include <stdio.h>
#include <stdlib.h>
#include <string.h>

static uint64_t seed = 20;

static double coordinate(void) {
    seed = seed * 6364136223846793005u + 1442695040888963407u;
    return (double)(seed >> 44);
}

static void tell(const char *format, ...) {
    va_list arguments;
    va_start(arguments, format);
    vfprintf(stderr, format, arguments);
    va_end(arguments);
}

static GEOSGeometry *positions(size_t count) {
    GEOSCoordSequence *made = GEOSCoordSeq_create((unsigned)count, 2);
    for (size_t place = 0; place < count; place++) {
        double x = coordinate(), y = coordinate();
        GEOSCoordSeq_setXY(made, (unsigned)place, x, y);
    }
    return GEOSGeom_createLineString(made);
}

int main(int count, char **words) {
    if (count != 3) return 2;
    initGEOS(tell, tell);
    GEOSGeometry *made = positions(strtoul(words[2], NULL, 10));
    GEOSGeometry *asked = made;
    int closing = 0;
    if (strcmp(words[1], "hull") == 0) {
        asked = GEOSConvexHull(made);
        closing = 1;
    }
    printf("%d\n", GEOSGetNumCoordinates(asked) - closing);
    finishGEOS();
    return 0;
}
