/* A desk in C: reads rules.txt, card.bin, slip.bin and editor.bin in a folder, asks for the response and prints what changes, by name. With the word `marks` after the folder it reads without test 18 and asks for the response by marks. */
#include "folder.h"
#include "rl.h"

#include <string.h>

/* Prints a slot's name and a value's name, each a part of the rule text; value 0 has no name there and is printed as a word: a card's 0 is no value, a change's NONE. */
static void print_pair(const char *what, const char *none, const uint8_t *text, size_t length, const RlTable *table,
                       size_t slot, size_t value) {
    RlName s = rl_slot_name_at(text, length, table, slot);
    stop_at(s.number, 0);
    printf("%s %.*s", what, (int)s.size, (const char *)text + s.start);
    if (value == 0) {
        printf(" %s\n", none);
        return;
    }
    RlName v = rl_value_name_at(text, length, table, slot, value);
    stop_at(v.number, 0);
    printf(" %.*s\n", (int)v.size, (const char *)text + v.start);
}

int main(int count, char **words) {
    static uint8_t text[ROOM], card[ROOM], slip[ROOM], number[ROOM];
    const char *folder = named(count, words);
    bool by_marks = count > 2 && strcmp(words[2], "marks") == 0;
    size_t text_length = load(folder, "rules.txt", text);
    size_t card_length = load(folder, "card.bin", card);
    size_t slip_length = load(folder, "slip.bin", slip);
    /* The editor's number is the one byte of its file; a file of another length has none, and 0 is no editor's. */
    size_t editor = load(folder, "editor.bin", number) == 1 ? number[0] : 0;

    static RlRead rules;
    (by_marks ? rl_read_unlayered_at : rl_read_at)(&rules, text, text_length);
    stop_at(rules.number, rules.second);
    const RlTable *table = &rules.table;

    /* The same slots without rules, by which cards and slips unpack whatever the strata are. */
    static RlTable slots;
    slots = *table;
    slots.count = 0;

    RlCard before = rl_unpack_card_at(&slots, card, card_length);
    stop_at(before.number, before.second);
    for (size_t i = 0; i < before.card.count; i++) {
        print_pair("has", "-", text, text_length, table, i, before.card.values[i]);
    }

    RlTally records[RL_EDITORS] = {0};
    uint8_t new_card[RL_CARD_BYTES], changes[RL_SLIP_BYTES], fired[RL_FIRED_BYTES];
    RlResponse response = (by_marks ? rl_respond_by_marks_at : rl_respond_at)(
        table, records, RL_EDITORS, editor, card, card_length, slip, slip_length, new_card, sizeof new_card, changes,
        sizeof changes, fired, sizeof fired);
    stop_at(response.number, response.second);

    RlSlip changed = rl_unpack_slip_at(&slots, changes, response.length);
    stop_at(changed.number, changed.second);
    for (size_t i = 0; i < changed.slip.count; i++) {
        RlChange change = changed.slip.changes[i];
        print_pair("change", "NONE", text, text_length, table, change.slot, change.value);
    }
    for (size_t rule = 1; rule <= table->count; rule++) {
        if (rl_has_fired(fired, rule)) {
            printf("fired %zu\n", rule);
        }
    }
    printf("rules fired %zu\n", response.fired);
    RlTally own = records[editor - 1];
    printf("tally %zu %" PRIu16 " %" PRIu16 "\n", editor, own.answered, own.refused);
    return 0;
}
