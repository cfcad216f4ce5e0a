/* Counts the lines of a file of Well-Known Text by the reader of GEOS, one line after another. */
#define _GNU_SOURCE
#include <geos_c.h>
#include <stdarg.h>
#include <stdio.h>
#include <stdlib.h>
#include <sys/types.h>

static void tell(const char *format, ...) {
    va_list arguments;
    va_start(arguments, format);
    vfprintf(stderr, format, arguments);
    va_end(arguments);
}

int main(int count, char **words) {
    FILE *file = count == 2 ? fopen(words[1], "rb") : NULL;
    if (!file) return 2;
    initGEOS(tell, tell);
    GEOSWKTReader *reader = GEOSWKTReader_create();
    char *line = NULL;
    size_t room = 0;
    unsigned long lines = 0;
    ssize_t length;
    while ((length = getline(&line, &room, file)) > 0) {
        GEOSGeometry *geometry = GEOSWKTReader_read(reader, line);
        if (!geometry) return 1;
        GEOSGeom_destroy(geometry);
        lines++;
    }
    printf("%lu\n", lines);
    free(line);
    GEOSWKTReader_destroy(reader);
    finishGEOS();
    fclose(file);
    return 0;
}
