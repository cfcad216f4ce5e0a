/* Joins two files of Well-Known Text by GEOS, on one thread: `join FIRST SECOND` prints the offsets of each pair of lines that
   intersect, in order. A tree of boxes holds the lesser of the two files, whose geometries are prepared once. */
#include "features.h"

typedef struct {
    uint64_t first, second;
} Pair;

/* The pairs so far, and the feature of the other file that is looked up in the tree. */
typedef struct {
    Pair *pairs;
    size_t count, room;
    const Feature *asking;
    int tree_is_first;
} Search;

static void ask(void *item, void *data) {
    Feature *held = item;
    Search *search = data;
    if (!held->prepared) held->prepared = GEOSPrepare(held->geometry);
    if (GEOSPreparedIntersects(held->prepared, search->asking->geometry) != 1) return;
    if (search->count == search->room) search->pairs = doubled(search->pairs, &search->room, sizeof(Pair));
    uint64_t held_at = held->offset, asking_at = search->asking->offset;
    search->pairs[search->count++] = search->tree_is_first ? (Pair){held_at, asking_at} : (Pair){asking_at, held_at};
}

static int in_order(const void *a, const void *b) {
    const Pair *one = a, *other = b;
    if (one->first != other->first) return one->first < other->first ? -1 : 1;
    return (one->second > other->second) - (one->second < other->second);
}

static Search search_all(Features held, Features asking, int tree_is_first) {
    GEOSSTRtree *tree = GEOSSTRtree_create(10);
    for (size_t i = 0; i < held.count; i++) GEOSSTRtree_insert(tree, held.items[i].geometry, &held.items[i]);
    Search search = {NULL, 0, 0, NULL, tree_is_first};
    for (size_t i = 0; i < asking.count; i++) {
        search.asking = &asking.items[i];
        GEOSSTRtree_query(tree, asking.items[i].geometry, ask, &search);
    }
    GEOSSTRtree_destroy(tree);
    return search;
}

int main(int count, char **words) {
    if (count != 3) return 2;
    initGEOS(tell, tell);
    Features first = read_features(words[1]), second = read_features(words[2]);
    int tree_is_first = first.count < second.count;
    Search search = tree_is_first ? search_all(first, second, 1) : search_all(second, first, 0);
    if (search.count) qsort(search.pairs, search.count, sizeof(Pair), in_order);
    for (size_t i = 0; i < search.count; i++) {
        print_number(search.pairs[i].first, ' ');
        print_number(search.pairs[i].second, '\n');
    }
    return 0;
}
