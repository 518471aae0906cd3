/* A day in C: three editors send slips for the card of a folder, and all are counted in one lent table of records. It prints what each call comes to, then the three records. */
#include "folder.h"
#include "rl.h"

#include <string.h>

/* The editors of the day and their records at its start: editor 12's is full. */
static const struct {
    size_t editor;
    RlTally record;
} editors[] = {{3, {0, 0}}, {12, {9999, 58}}, {40, {120, 6}}};

/* A call: who sends it, and the slip's bytes. */
typedef struct {
    size_t editor;
    uint8_t slip[3];
    size_t length;
} Call;

/* The calls of the day in their order. */
static const Call calls[] = {
    {3, {0x04, 0x42}, 2},       /* last-attested to before-1800 */
    {12, {0x04, 0x88}, 2},      /* region to isles: the record is full */
    {40, {0x04, 0x88}, 2},      /* region to isles */
    {40, {0x05, 0x68}, 2},      /* page to a value above its last */
    {41, {0x05, 0x66}, 2},      /* page to set: there is no editor 41 */
    {3, {0x08, 0x44, 0x31}, 3}, /* last-attested to 1800s, which makes the status rare, and status to current */
    {12, {0x05, 0x66}, 2},      /* page to set: the record is still full */
    {3, {0x05, 0x66}, 2},       /* page to set */
    {40, {0x00}, 1},            /* no change */
};

int main(int count, char **words) {
    static uint8_t text[ROOM], card[ROOM];
    const char *folder = named(count, words);
    size_t text_length = load(folder, "rules.txt", text);
    size_t card_length = load(folder, "card.bin", card);
    static RlRead rules;
    rl_read_at(&rules, text, text_length);
    stop_at(rules.number, rules.second);

    RlTally records[RL_EDITORS] = {0};
    for (size_t i = 0; i < sizeof editors / sizeof *editors; i++) {
        records[editors[i].editor - 1] = editors[i].record;
    }
    for (size_t i = 0; i < sizeof calls / sizeof *calls; i++) {
        const Call *call = &calls[i];
        uint8_t new_card[RL_CARD_BYTES], changes[RL_SLIP_BYTES], fired[RL_FIRED_BYTES];
        RlResponse response =
            rl_respond_at(&rules.table, records, RL_EDITORS, call->editor, card, card_length, call->slip, call->length,
                          new_card, sizeof new_card, changes, sizeof changes, fired, sizeof fired);
        if (response.number == 0) {
            printf("editor %zu rules fired %zu\n", call->editor, response.fired);
            memcpy(card, new_card, card_length);
        } else {
            printf("editor %zu refused %" PRIu8 " %zu\n", call->editor, response.number, response.second);
        }
    }
    for (size_t i = 0; i < sizeof editors / sizeof *editors; i++) {
        RlTally record = records[editors[i].editor - 1];
        printf("tally %zu %" PRIu16 " %" PRIu16 "\n", editors[i].editor, record.answered, record.refused);
    }
    return 0;
}
