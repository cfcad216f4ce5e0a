/* Reads a file as atgis does, at most 65,536 bytes a turn into one buffer that doubles, and does nothing with it. */
#include <fcntl.h>
#include <stdio.h>
#include <stdlib.h>
#include <string.h>
#include <unistd.h>

int main(int count, char **words) {
    int file = count == 2 ? open(words[1], O_RDONLY) : -1;
    if (file < 0) return 2;
    static char turn[65536];
    char *bytes = NULL;
    size_t length = 0, room = 0;
    ssize_t given;
    while ((given = read(file, turn, sizeof turn)) > 0) {
        if (length + (size_t)given > room) {
            room = room ? 2 * room : sizeof turn;
            bytes = realloc(bytes, room);
            if (!bytes) return 5;
        }
        memcpy(bytes + length, turn, (size_t)given);
        length += (size_t)given;
    }
    if (given < 0) return 3;
    printf("%zu\n", length);
    free(bytes);
    return 0;
}
