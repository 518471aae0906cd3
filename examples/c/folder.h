/* What the examples in C do with a folder: load its files, and end at a refusal. */
#ifndef FOLDER_H
#define FOLDER_H

#include <inttypes.h>
#include <stdio.h>
#include <stdlib.h>

/* The most bytes that are read of a file: one more than a rule text may have. */
enum { ROOM = 262145 };

/* The folder that the command line names, else the one where the program runs. */
static inline const char *named(int count, char **words) {
    return count > 1 ? words[1] : ".";
}

/* Reads a file of the folder into the room given, and says how many bytes it has. */
static inline size_t load(const char *folder, const char *name, uint8_t *room) {
    char path[4096];
    snprintf(path, sizeof path, "%s/%s", folder, name);
    FILE *file = fopen(path, "rb");
    if (file == NULL) {
        printf("unread %s\n", name);
        exit(1);
    }
    size_t length = fread(room, 1, ROOM, file);
    fclose(file);
    return length;
}

/* Ends the program where a number says that something was refused. */
static inline void stop_at(uint8_t number, size_t second) {
    if (number != 0) {
        printf("refused %" PRIu8 " %zu\n", number, second);
        exit(1);
    }
}

#endif
