/* The stack that each entry point of the library needs: it is called on a stack of its own that was filled with one byte, and what is no longer that byte was used. */
#define _GNU_SOURCE
#include "rl.h"

#include <pthread.h>
#include <stdio.h>
#include <stdlib.h>
#include <string.h>

#define STACK (8 << 20)
#define FILL 0xA5

/* A rule file with its card and slip, the same with a rule on a circle through a NOT, and what was made of them. */
typedef struct {
    uint8_t text[RL_PRINT_BYTES], circled[RL_PRINT_BYTES];
    size_t size, circled_size;
    uint8_t card_bytes[RL_CARD_BYTES], slip_bytes[1];
    size_t card_length;
    RlRead reading;
    RlCard card;
    RlSlip slip;
    uint8_t circle, print, answer, marks;
} File;

static File largest, small;

/* The file that is called with. */
static File *file;

static uint8_t out[RL_PRINT_BYTES], changes[RL_SLIP_BYTES], fired[RL_FIRED_BYTES];
static RlTally records[RL_EDITORS];

/* The names of the slots. */
static const char names[] = "abcdefghijklmnopqrstuvwxyzABCDEF";

/* Puts a part at the end of a file's text. */
static void put(File *to, const char *part) {
    size_t length = strlen(part);
    memcpy(to->text + to->size, part, length);
    to->size += length;
}

/* Puts the last rule, and makes the text with a circle, which has another in its place. */
static void put_last(File *to, const char *rule, const char *circled) {
    to->circled_size = to->size + strlen(circled);
    memcpy(to->circled, to->text, to->size);
    memcpy(to->circled + to->size, circled, strlen(circled));
    put(to, rule);
}

/* The largest file: every slot has all values, every rule all literals and every other one all assignments; with more of them the print would be too long. */
static void write_largest(void) {
    char part[400];
    for (int slot = 0; slot < RL_SLOTS; slot++) {
        snprintf(part, sizeof part, "SLOT %c{a,b,c,d,e,f,g,h,i,j,k,l,m,n,o};", names[slot]);
        put(&largest, part);
    }
    for (int rule = 0; rule < RL_RULES - 1; rule++) {
        const char *s = names + rule % 24;
        snprintf(part, sizeof part,
                 "WHEN %c*=b IF %c|=a AND %c|=a AND %c|=a AND %c|=a AND %c|=a AND %c|=a AND %c|=a AND NOT %c*=%c THEN", s[0], s[0],
                 s[1], s[2], s[3], s[4], s[5], s[6], s[8], 'c' + rule % 12);
        put(&largest, part);
        snprintf(part, sizeof part, rule % 2 ? "{%c:=b,%c:=b,%c:=b,%c:=b};" : " %c:=b;", s[1], s[2], s[3], s[4]);
        put(&largest, part);
    }
    put_last(&largest, "WHEN a*=b IF TRUE THEN b:=b;", "WHEN a*=b IF NOT a*=c THEN a:=c;");
    largest.card_bytes[0] = RL_SLOTS << 2;
    for (int at = 1; at < RL_CARD_BYTES; at++) largest.card_bytes[at] = 0x44;
    largest.card_bytes[RL_CARD_BYTES - 1] = 0x40;
    largest.card_length = RL_CARD_BYTES;
}

/* A file of two slots and two rules. */
static void write_small(void) {
    put(&small, "SLOT a{x,y};SLOT b{x,y};WHEN a*=y IF TRUE THEN b:=y;");
    put_last(&small, "WHEN b*=y IF NOT a|=x THEN a:=x;", "WHEN a*=y IF NOT a*=x THEN a:=x;");
    small.card_bytes[0] = 2 << 2;
    small.card_bytes[1] = 0x44;
    small.card_length = 2;
}

/* The entry points, each called with the file; the first does nothing, and what it uses is taken off. In a text that is refused with 18 what is made to find the circle comes on top. */
static void none(void) {}
static void read_text(void) { file->reading = rl_read(file->text, file->size); }
static void read_circled(void) { file->circle = rl_read(file->circled, file->circled_size).number; }
static void print(void) { file->print = rl_print(file->text, file->size, out, sizeof out).number; }
static void print_circled(void) { rl_print(file->circled, file->circled_size, out, sizeof out); }
static void read_unlayered(void) { rl_read_unlayered(file->text, file->size); }
static void is_sound(void) { rl_is_sound(file->reading.table); }
static void slot_name(void) { rl_slot_name(file->text, file->size, file->reading.table, file->reading.table.width - 1); }
static void value_name(void) { rl_value_name(file->text, file->size, file->reading.table, file->reading.table.width - 1, 2); }
static void unpack_card(void) { file->card = rl_unpack_card(file->reading.table, file->card_bytes, file->card_length); }
static void unpack_slip(void) { file->slip = rl_unpack_slip(file->reading.table, file->slip_bytes, sizeof file->slip_bytes); }
static void pack_card(void) { rl_pack_card(file->reading.table, file->card.card, out, sizeof out); }
static void pack_slip(void) { rl_pack_slip(file->reading.table, file->slip.slip, out, sizeof out); }
static void respond(void) {
    RlResponse response = rl_respond(file->reading.table, records, RL_EDITORS, 40, file->card_bytes, file->card_length, file->slip_bytes,
                                     sizeof file->slip_bytes, out, sizeof out, changes, sizeof changes, fired, sizeof fired);
    file->answer = response.number;
}
static void respond_by_marks(void) {
    RlResponse response = rl_respond_by_marks(file->reading.table, records, RL_EDITORS, 40, file->card_bytes, file->card_length,
                                              file->slip_bytes, sizeof file->slip_bytes, out, sizeof out, changes, sizeof changes, fired,
                                              sizeof fired);
    file->marks = response.number;
}

static void *call(void *function) {
    ((void (*)(void))function)();
    return NULL;
}

/* The bytes of stack that a function uses. */
static size_t used(void (*function)(void)) {
    uint8_t *stack = aligned_alloc(4096, STACK);
    memset(stack, FILL, STACK);
    pthread_attr_t attributes;
    pthread_t thread;
    pthread_attr_init(&attributes);
    pthread_attr_setstack(&attributes, stack, STACK);
    pthread_create(&thread, &attributes, call, (void *)function);
    pthread_join(thread, NULL);
    size_t low = 0;
    while (low < STACK && stack[low] == FILL) low++;
    free(stack);
    return STACK - low;
}

/* Whether all that was called with a file came to its end, and the text with a circle was refused with 18. */
static bool came_through(const File *of) {
    return !(of->reading.number | of->card.number | of->slip.number | of->print | of->answer | of->marks) && of->circle == 18;
}

/* The bytes of stack that a function uses with a file. */
static size_t used_with(File *with, void (*function)(void)) {
    file = with;
    return used(function) - used(none);
}

int main(void) {
    static const struct {
        const char *name;
        void (*function)(void);
    } entries[] = {
        {"rl_read", read_text},
        {"rl_read (18)", read_circled},
        {"rl_print", print},
        {"rl_print (18)", print_circled},
        {"rl_read_unlayered", read_unlayered},
        {"rl_is_sound", is_sound},
        {"rl_slot_name", slot_name},
        {"rl_value_name", value_name},
        {"rl_unpack_card", unpack_card},
        {"rl_unpack_slip", unpack_slip},
        {"rl_pack_card", pack_card},
        {"rl_pack_slip", pack_slip},
        {"rl_respond", respond},
        {"rl_respond_by_marks", respond_by_marks},
    };
    write_largest();
    write_small();
    printf("| entry point | the largest file | 2 rules |\n|---|---|---|\n");
    for (size_t at = 0; at < sizeof entries / sizeof *entries; at++) {
        size_t most = used_with(&largest, entries[at].function), least = used_with(&small, entries[at].function);
        printf("| %-19s | %7zu | %7zu |\n", entries[at].name, most, least);
    }
    return came_through(&largest) && came_through(&small) ? 0 : 1;
}
