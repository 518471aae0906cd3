/* Null with length 0 in the functions with `_at`, in C and in C++: names each that does not give what rl.h says, and its exit status is 1 then. */
#include <rl.h>

#include <stdio.h>
#include <string.h>

static const char rules[] = "SLOT x {0,1}; SLOT y {0,1}; WHEN x *= 1 IF TRUE THEN y := 1;";
static const uint8_t card[] = {0x08, 0x44}, slip[] = {0x04, 0x04};

static RlRead reading, empty;
static RlTally records[RL_EDITORS];
static uint8_t new_card[RL_CARD_BYTES], changes[RL_SLIP_BYTES], fired[RL_FIRED_BYTES];
static int wrong;

/* Names what has other numbers than it should. */
static void expect(const char *what, uint8_t number, size_t second, RlRefusal refusal, size_t at) {
    if (number != refusal || second != at) {
        printf("%s gives %d %zu\n", what, number, second);
        wrong = 1;
    }
}

/* What both responses give for buffers, each of which is lent in full or null with length 0. */
static void expect_response(const char *what, const uint8_t *with_card, const uint8_t *with_slip, RlTally *with_records,
                            uint8_t *to_card, uint8_t *to_changes, uint8_t *to_fired, RlRefusal refusal, size_t at) {
    RlResponse by_strata = rl_respond_at(
        &reading.table, with_records, with_records ? RL_EDITORS : 0, 7, with_card, with_card ? sizeof card : 0, with_slip,
        with_slip ? sizeof slip : 0, to_card, to_card ? sizeof new_card : 0, to_changes,
        to_changes ? sizeof changes : 0, to_fired, to_fired ? sizeof fired : 0);
    expect(what, by_strata.number, by_strata.second, refusal, at);
    RlResponse by_marks = rl_respond_by_marks_at(
        &reading.table, with_records, with_records ? RL_EDITORS : 0, 7, with_card, with_card ? sizeof card : 0, with_slip,
        with_slip ? sizeof slip : 0, to_card, to_card ? sizeof new_card : 0, to_changes,
        to_changes ? sizeof changes : 0, to_fired, to_fired ? sizeof fired : 0);
    expect(what, by_marks.number, by_marks.second, refusal, at);
}

int main(void) {
    const uint8_t *text = (const uint8_t *)rules;
    expect("a text", rl_read_at(&reading, text, strlen(rules)), reading.second, RL_ACCEPTED, 0);

    expect("an empty text", rl_read_at(&empty, NULL, 0), empty.second, RL_ACCEPTED, 0);
    expect("its slots and rules", 0, (size_t)empty.table.width + empty.table.count, RL_ACCEPTED, 0);
    expect("its table in order", rl_is_sound_at(&empty.table), 0, (RlRefusal)1, 0);
    expect("an empty text, unlayered", rl_read_unlayered_at(&empty, NULL, 0), empty.second, RL_ACCEPTED, 0);
    expect("its slots and rules", 0, (size_t)empty.table.width + empty.table.count, RL_ACCEPTED, 0);

    RlPrinted printed = rl_print_at(NULL, 0, NULL, 0);
    expect("the print of an empty text", printed.number, printed.second + printed.length, RL_ACCEPTED, 0);
    printed = rl_print_at(text, strlen(rules), NULL, 0);
    expect("a print into nothing", printed.number, printed.second, RL_OUTPUT_UNDER_PRINT, 0);

    RlName name = rl_slot_name_at(NULL, 0, &reading.table, 0);
    expect("a slot's name in an empty text", name.number, name.size, RL_UNSOUND_TABLE, 0);
    name = rl_value_name_at(NULL, 0, &reading.table, 0, 1);
    expect("a value's name in an empty text", name.number, name.size, RL_UNSOUND_TABLE, 0);

    RlCard no_card = rl_unpack_card_at(&reading.table, NULL, 0);
    expect("an empty card", no_card.number, no_card.second, RL_CARD_LENGTH, 0);
    RlSlip no_slip = rl_unpack_slip_at(&reading.table, NULL, 0);
    expect("an empty slip", no_slip.number, no_slip.second, RL_SLIP_LENGTH, 0);

    RlCard own_card = rl_unpack_card_at(&reading.table, card, sizeof card);
    RlPacked packed = rl_pack_card_at(&reading.table, own_card.card, NULL, 0);
    expect("a card into nothing", packed.number, packed.second, RL_OUTPUT_TOO_SHORT, 1);
    RlSlip own_slip = rl_unpack_slip_at(&reading.table, slip, sizeof slip);
    packed = rl_pack_slip_at(&reading.table, own_slip.slip, NULL, 0);
    expect("a slip into nothing", packed.number, packed.second, RL_OUTPUT_TOO_SHORT, 2);

    expect_response("a response", card, slip, records, new_card, changes, fired, RL_ACCEPTED, 0);
    expect("rule 1 in the fired record", rl_has_fired(fired, 1), 0, (RlRefusal)1, 0);
    expect_response("no records", card, slip, NULL, new_card, changes, fired, RL_NO_RECORD, 0);
    expect_response("no card", NULL, slip, records, new_card, changes, fired, RL_CARD_LENGTH, 0);
    expect_response("no slip", card, NULL, records, new_card, changes, fired, RL_SLIP_LENGTH, 0);
    expect_response("no new card", card, slip, records, NULL, changes, fired, RL_OUTPUT_TOO_SHORT, 1);
    expect_response("no changes", card, slip, records, new_card, NULL, fired, RL_OUTPUT_TOO_SHORT, 2);
    expect_response("no fired record", card, slip, records, new_card, changes, NULL, RL_OUTPUT_TOO_SHORT, 3);
    expect_response("nothing at all", NULL, NULL, NULL, NULL, NULL, NULL, RL_NO_RECORD, 0);

    reading.table.count = 0;
    expect_response("no fired record of no rules", card, slip, records, new_card, changes, NULL, RL_ACCEPTED, 0);
    return wrong;
}
