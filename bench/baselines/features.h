/* The features of a file of Well-Known Text, one a line, read by GEOS, and the printing of their offsets. */
#ifndef FEATURES_H
#define FEATURES_H
#define _GNU_SOURCE
#include <geos_c.h>
#include <stdarg.h>
#include <stdint.h>
#include <stdio.h>
#include <stdlib.h>
#include <sys/types.h>

/* A feature's offset in its file, its geometry, and the geometry prepared, once it is asked of. */
typedef struct {
    uint64_t offset;
    GEOSGeometry *geometry;
    const GEOSPreparedGeometry *prepared;
} Feature;

typedef struct {
    Feature *items;
    size_t count;
} Features;

static void tell(const char *format, ...) {
    va_list arguments;
    va_start(arguments, format);
    vfprintf(stderr, format, arguments);
    va_end(arguments);
}

/* A block that has room for twice as many items. */
static void *doubled(void *items, size_t *room, size_t size) {
    *room = *room ? 2 * *room : 1024;
    items = realloc(items, *room * size);
    if (!items) abort();
    return items;
}

static GEOSGeometry *read_text(GEOSWKTReader *reader, const char *text) {
    GEOSGeometry *geometry = GEOSWKTReader_read(reader, text);
    if (!geometry) exit(1);
    return geometry;
}

static Features read_features(const char *name) {
    FILE *file = fopen(name, "rb");
    if (!file) exit(2);
    GEOSWKTReader *reader = GEOSWKTReader_create();
    Features features = {NULL, 0};
    size_t room = 0, line_room = 0;
    uint64_t offset = 0;
    char *line = NULL;
    ssize_t length;
    while ((length = getline(&line, &line_room, file)) > 0) {
        if (features.count == room) features.items = doubled(features.items, &room, sizeof(Feature));
        features.items[features.count++] = (Feature){offset, read_text(reader, line), NULL};
        offset += (uint64_t)length;
    }
    free(line);
    GEOSWKTReader_destroy(reader);
    fclose(file);
    return features;
}

static void print_number(uint64_t number, char end) {
    char digits[21];
    size_t at = sizeof digits;
    digits[--at] = end;
    do digits[--at] = (char)('0' + number % 10);
    while (number /= 10);
    fwrite_unlocked(digits + at, 1, sizeof digits - at, stdout);
}
#endif
