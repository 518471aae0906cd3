/* The RL desk for programs in C11 and C++17 on x86-64: `pkg-config --cflags --libs rl` says how to build with librl.so or librl.a, which have the same twelve functions. */
#ifndef RL_H
#define RL_H

#include <assert.h>
#include <stdbool.h>
#include <stddef.h>
#include <stdint.h>

#ifdef __cplusplus
extern "C" {
#endif

/* The version of this header and of the library that it belongs to. */
#define RL_VERSION_MAJOR 1
#define RL_VERSION_MINOR 0
#define RL_VERSION_PATCH 0
#define RL_VERSION "1.0.0"

/* Memory and threads: a function allocates nothing, keeps nothing from one call to the next and shares nothing, so that any number of threads may call it at once. A rule table goes by value; texts, cards and slips are only read, and threads may share them so long as none writes them. The outputs and the table of records are lent for the call alone: while it runs, no other thread may read or write any record of that table, not even another editor's. So take one lock for each table, or a table for each thread: what is promised of a call is promised for a table that nobody else touches meanwhile. */

/* Stack: over each function stands how many bytes of it a call takes on x86-64, the table that goes by value counted, whether it is handed over or given back; it is the same for small files and large ones. bench/stack.c measures it, with gcc -O2. A function with `_at` takes up to 240 bytes more by gcc, and up to 96,512 by clang, which copies the table once more. */

/* The order of bits in cards, slips and fired records: each field with its most significant bit first, one after the other from the most significant bit of the first byte on, and zero in what is left of the last byte. A fired record has a bit for each rule, rule 1 first: rule n fired where `fired[(n - 1) / 8] >> (7 - (n - 1) % 8) & 1` is 1, which `rl_has_fired` says. */

/* Buffers: a buffer is a pointer and its length. As many bytes can be read there, or read and written in an output, and an output overlaps no other buffer. The table of records is a pointer and the number of records; what is said of an output holds for it too, record for byte, and it lies where an array of RlTally may lie, at an even address (bytes of a file that are cast to records may not). A bool is 0 or 1. Nothing else is asked of any argument. */

/* Null: the twelve functions ask for pointers that are not null, also where the length is 0. The functions with `_at` further down take null with length 0 for an empty buffer, which gives: of a text, a table without slots and rules; of a card 20 and of a slip 24; of an output 30, or 33 of a print's, where room in it is asked for; of a table of records 44. Null with another length, and a null table or reading, is the caller's fault. */

/* The limits of a rule file. */
#define RL_SLOTS 32
#define RL_VALUES 15
#define RL_RULES 2000
#define RL_LITERALS 8
#define RL_ASSIGNMENTS 4

/* Bytes that any card, any slip of 32 changes, any fired record and any print fit in. */
#define RL_CARD_BYTES 17
#define RL_SLIP_BYTES 37
#define RL_FIRED_BYTES 250
#define RL_PRINT_BYTES 262144

/* Editors, and so records in a table of them: a caller lends `RlTally records[RL_EDITORS]`, in which the record of editor n (from 1) is at n - 1. */
#define RL_EDITORS 40

/* Where a name stands in the rule text. */
typedef struct {
    uint32_t start;
    uint32_t size;
} RlPlace;

/* A slot: its name, and the names of its values with the number used; value k (from 1) is at k - 1. */
typedef struct {
    RlPlace name;
    RlPlace values[RL_VALUES];
    uint16_t count;
} RlSlot;

/* A test in a condition: `slot *= value` (becomes) or `slot |= value`, plain or under NOT. Value 0 is NONE: `slot *= NONE` holds where the card has a value and its withdrawal is among the changes, `slot |= NONE` where the card has no value. */
typedef struct {
    bool becomes;
    bool negated;
    uint8_t slot;
    uint8_t value;
} RlLiteral;

/* `slot := value`; value 0 is NONE: the slot's value is withdrawn. */
typedef struct {
    uint8_t slot;
    uint8_t value;
} RlAssignment;

/* A rule: its trigger `slot *= value`, in which value 0 is NONE too, its literals and assignments with the numbers used, its stratum. Strata are the least numbers from 1 such that every rule that assigns what a rule tests by a plain `*=`, in the trigger too, has the same or a lower one, and every rule that assigns what it tests under NOT a lower one; a table that was read without test 18 has 0 throughout. */
typedef struct {
    uint8_t slot;
    uint8_t value;
    RlLiteral literals[RL_LITERALS];
    uint8_t tested;
    RlAssignment assignments[RL_ASSIGNMENTS];
    uint8_t assigned;
    uint16_t stratum;
} RlRule;

/* The table: slots (from 0) with the number used, and rules with the number used; rule n (from 1) is at n - 1. 96,228 bytes. */
typedef struct {
    RlSlot slots[RL_SLOTS];
    uint16_t width;
    RlRule rules[RL_RULES];
    uint16_t count;
} RlTable;

/* An unpacked card: a value for each slot, 0 for no value, and how many slots it counts. */
typedef struct {
    uint8_t values[RL_SLOTS];
    size_t count;
} RlCardForm;

/* A change of a slot to a value; value 0 is NONE, a withdrawal: the new card has no value there. */
typedef struct {
    uint8_t slot;
    uint8_t value;
} RlChange;

/* An unpacked slip: its changes, and how many it counts. */
typedef struct {
    RlChange changes[RL_SLOTS];
    size_t count;
} RlSlipForm;

/* An editor's record: slips answered and slips refused, 0 to 9,999 each. */
typedef struct {
    uint16_t answered;
    uint16_t refused;
} RlTally;

/* What the `number` of a result says; where a comment names a second number, `second` has it, else that is 0. */
typedef enum RlRefusal {
    /* Nothing was refused. */
    RL_ACCEPTED = 0,

    /* Of rule texts. Second number of 11 to 17: how many rules are complete before the faulty token. */

    /* The text has more than 262,144 bytes. */
    RL_TEXT_TOO_LONG = 10,
    /* A byte that can begin no token, or `*`, `|` or `:` without `=`. */
    RL_BAD_BYTE = 11,
    /* A token out of place, or the text ends inside a statement. */
    RL_OUT_OF_PLACE = 12,
    /* A name over 24 bytes. */
    RL_NAME_TOO_LONG = 13,
    /* A slot declared twice, or a value twice in one slot. */
    RL_DECLARED_TWICE = 14,
    /* One slot, value, rule, literal or assignment too many. */
    RL_TOO_MANY = 15,
    /* A slot, or a value of this slot, that is not declared. */
    RL_UNDECLARED = 16,
    /* A slot assigned twice in one rule. */
    RL_ASSIGNED_TWICE = 17,
    /* No strata exist; second number: the lowest rule on a circle of dependence that passes through a NOT. */
    RL_NO_STRATA = 18,

    /* Of cards and slips. */

    /* The card is empty, or not of its own count's length. */
    RL_CARD_LENGTH = 20,
    /* The card's count is not the number of slots in the rule file. */
    RL_CARD_COUNT = 21,
    /* The card has a value above the slot's last; second number: the first such slot, from 0. */
    RL_CARD_VALUE = 22,
    /* A padding bit of the card is not zero. */
    RL_CARD_PADDING = 23,
    /* The slip is empty, or not of its own count's length; in packing, it has more than 32 changes. */
    RL_SLIP_LENGTH = 24,
    /* A change's slot is not below the slot count; second number: the change's position, from 0. */
    RL_SLIP_SLOT = 25,
    /* A change's slot is not above that of the change before it; second number: the change's position, from 0. */
    RL_SLIP_ORDER = 26,
    /* A change's value is above the slot's last; second number: the change's position, from 0. */
    RL_SLIP_VALUE = 27,
    /* A padding bit of the slip is not zero. */
    RL_SLIP_PADDING = 28,

    /* Of what the calling program hands over. */

    /* An output is too short; second number: 1 the card, 2 the changes or the slip, 3 the fired record, the first short one. */
    RL_OUTPUT_TOO_SHORT = 30,
    /* The table is not in order; of a name, the table lacks it or it stands outside the text. */
    RL_UNSOUND_TABLE = 31,
    /* A count in the editor's own record is 9,999 or above. */
    RL_RECORD_FULL = 32,
    /* The output is shorter than the print. */
    RL_OUTPUT_UNDER_PRINT = 33,
    /* The print would have more than 262,144 bytes. */
    RL_PRINT_TOO_LONG = 34,
    /* The editor number is not from 1 to 40, or there are not forty records. */
    RL_NO_RECORD = 44,

    /* Of rules and entry together. */

    /* A slot has two or more values among the changes; second number: the lowest such slot, from 0. */
    RL_CONFLICT = 40,
    /* By marks, a value of a slot would be both positive and negative. */
    RL_BOTH_SIGNS = 41,
    /* By marks, no value would be both, and one stays unknown. */
    RL_UNKNOWN = 42
} RlRefusal;

/* In each result `number` is an RlRefusal, and `second`, which a name's place does not have, its second number. */

/* A reading: the table is without slots or rules after a refusal. */
typedef struct {
    uint8_t number;
    size_t second;
    RlTable table;
} RlRead;

/* A print: how many bytes were written, 0 after a refusal. */
typedef struct {
    uint8_t number;
    size_t second;
    size_t length;
} RlPrinted;

/* Where a name stands: 0, its start and its size; or 31, 0 and 0. */
typedef struct {
    uint8_t number;
    size_t start;
    size_t size;
} RlName;

/* An unpacked card, without slots after a refusal. */
typedef struct {
    uint8_t number;
    size_t second;
    RlCardForm card;
} RlCard;

/* An unpacked slip, without changes after a refusal. */
typedef struct {
    uint8_t number;
    size_t second;
    RlSlipForm slip;
} RlSlip;

/* A packing: how many bytes were written, 0 after a refusal. */
typedef struct {
    uint8_t number;
    size_t second;
    size_t length;
} RlPacked;

/* A response: the length of the changes and how many rules fired, both 0 after a refusal. */
typedef struct {
    uint8_t number;
    size_t second;
    size_t length;
    size_t fired;
} RlResponse;

/* Reads a rule text into a table with the least strata, or refuses it with 10 to 18; 18 is for rules in a circle of tests by `*=` that passes through a NOT, with the lowest rule on such a circle. Stack: 359,704 bytes. */
RlRead rl_read(const uint8_t *text, size_t text_length);

/* Reads a rule text without test 18, for the response by marks: into a table with stratum 0 throughout, whether strata exist or not, or refuses it with 10 to 17. Such a table is for `rl_respond_by_marks` and the names; unless it has no rules, `rl_is_sound` says no, and `rl_respond`, packing and unpacking say 31. Its cards and slips are packed and unpacked by a table of the same slots without rules: a copy of it with `count` 0, or what `rl_read` gives for the text's slot lines alone. Stack: 325,064 bytes. */
RlRead rl_read_unlayered(const uint8_t *text, size_t text_length);

/* Prints a rule text in the house style into the output, or refuses it with 10 to 18, 34 (the print would pass 262,144 bytes), 33 (the output is shorter than the print); bytes beyond the print, and all after a refusal, stay as they are. Stack: 364,568 bytes. */
RlPrinted rl_print(const uint8_t *text, size_t text_length, uint8_t *out, size_t out_length);

/* Says whether a table is in order; with one that is not, the functions below that take it say 31, but for the names, and the responses 44 or 32 before it where the editor has no record or a full one. `rl_respond_by_marks` takes one more: a table that would be in order but for its stratum 0 throughout. Stack: 202,232 bytes. */
bool rl_is_sound(RlTable table);

/* Says where a slot's name stands in the text, or 31. Stack: 192,536 bytes. */
RlName rl_slot_name(const uint8_t *text, size_t text_length, RlTable table, size_t slot);

/* Says where the name of a slot's value stands in the text, values counted from 1, or 31. Value 0, NONE, is declared nowhere in the text: its name is 31, and a caller who shows changes writes the word. Stack: 192,664 bytes. */
RlName rl_value_name(const uint8_t *text, size_t text_length, RlTable table, size_t slot, size_t value);

/* Unpacks bytes as a card, or refuses them with 31, 20 to 23. Stack: 202,456 bytes. */
RlCard rl_unpack_card(RlTable table, const uint8_t *bytes, size_t bytes_length);

/* Unpacks bytes as a slip, or refuses them with 31, 24 to 28. A change may have value 0; 27 is for a value above the slot's last. Stack: 202,632 bytes. */
RlSlip rl_unpack_slip(RlTable table, const uint8_t *bytes, size_t bytes_length);

/* Packs a card into the output, or refuses it with 31, 21, 22, 30; bytes beyond the packed length, and all after a refusal, stay as they are. Stack: 202,344 bytes. */
RlPacked rl_pack_card(RlTable table, RlCardForm card, uint8_t *out, size_t out_length);

/* Packs a slip into the output, or refuses it with 31, 24 to 27, 30; other bytes stay as they are. A change may have value 0, as in unpacking. Stack: 202,392 bytes. */
RlPacked rl_pack_slip(RlTable table, RlSlipForm slip, uint8_t *out, size_t out_length);

/* Responds to an editor's packed card and packed slip by strata: writes the new card (as long as the card), the changes as a packed slip (`length` bytes; the output has 37 at least) and the fired record, or refuses with 44 (the editor number is not from 1 to 40, or there are not forty records), 32 (the editor's own record is full; no other is looked at), 31, 20 to 28, 30, 40; other bytes stay as they are. An answer adds one to slips answered in the editor's record, a refusal but 44 and 32 one to slips refused; no other record changes, and 44 and 32 change none. Stack: 254,184 bytes. */
RlResponse rl_respond(RlTable table, RlTally *records, size_t records_length, size_t editor, const uint8_t *card,
                      size_t card_length, const uint8_t *slip, size_t slip_length, uint8_t *new_card,
                      size_t new_card_length, uint8_t *changes, size_t changes_length, uint8_t *fired,
                      size_t fired_length);

/* Responds by marks: takes a table of `rl_read` or of `rl_read_unlayered`, and writes, gives and counts what `rl_respond` does, or refuses with 44, 32, 31, 20 to 28, 30, 41 (a value of a slot, NONE among them, would be both positive and negative), 42 (one stays unknown), the last two with second number 0; other bytes stay as they are. Where `rl_respond` answers too, by the text's table with strata, the answers are equal. Stack: 254,184 bytes. */
RlResponse rl_respond_by_marks(RlTable table, RlTally *records, size_t records_length, size_t editor,
                               const uint8_t *card, size_t card_length, const uint8_t *slip, size_t slip_length,
                               uint8_t *new_card, size_t new_card_length, uint8_t *changes, size_t changes_length,
                               uint8_t *fired, size_t fired_length);

/* The same functions with `_at`: a table is handed over by its address, a reading is put at one, and null with length 0 is the empty buffer. */

/* The bytes to be read at an address, or an empty buffer for null with length 0. */
static inline const uint8_t *rl_bytes_at(const uint8_t *bytes, size_t length) {
    static const uint8_t empty = 0;
    return bytes || length > 0 ? bytes : &empty;
}

/* The output at an address, or an empty one for null with length 0. */
static inline uint8_t *rl_output_at(uint8_t *output, size_t length) {
    static uint8_t empty;
    return output || length > 0 ? output : &empty;
}

/* The table of records at an address, or an empty one for null with length 0. */
static inline RlTally *rl_records_at(RlTally *records, size_t length) {
    static RlTally empty;
    return records || length > 0 ? records : &empty;
}

/* Puts what `rl_read` gives at `read`, and says its number. */
static inline uint8_t rl_read_at(RlRead *read, const uint8_t *text, size_t text_length) {
    *read = rl_read(rl_bytes_at(text, text_length), text_length);
    return read->number;
}

/* Puts what `rl_read_unlayered` gives at `read`, and says its number. */
static inline uint8_t rl_read_unlayered_at(RlRead *read, const uint8_t *text, size_t text_length) {
    *read = rl_read_unlayered(rl_bytes_at(text, text_length), text_length);
    return read->number;
}

/* Prints as `rl_print` does. */
static inline RlPrinted rl_print_at(const uint8_t *text, size_t text_length, uint8_t *out, size_t out_length) {
    return rl_print(rl_bytes_at(text, text_length), text_length, rl_output_at(out, out_length), out_length);
}

/* Says of the table at an address what `rl_is_sound` says. */
static inline bool rl_is_sound_at(const RlTable *table) {
    return rl_is_sound(*table);
}

/* Says by the table at an address what `rl_slot_name` says. */
static inline RlName rl_slot_name_at(const uint8_t *text, size_t text_length, const RlTable *table, size_t slot) {
    return rl_slot_name(rl_bytes_at(text, text_length), text_length, *table, slot);
}

/* Says by the table at an address what `rl_value_name` says. */
static inline RlName rl_value_name_at(const uint8_t *text, size_t text_length, const RlTable *table, size_t slot,
                                      size_t value) {
    return rl_value_name(rl_bytes_at(text, text_length), text_length, *table, slot, value);
}

/* Unpacks by the table at an address as `rl_unpack_card` does. */
static inline RlCard rl_unpack_card_at(const RlTable *table, const uint8_t *bytes, size_t bytes_length) {
    return rl_unpack_card(*table, rl_bytes_at(bytes, bytes_length), bytes_length);
}

/* Unpacks by the table at an address as `rl_unpack_slip` does. */
static inline RlSlip rl_unpack_slip_at(const RlTable *table, const uint8_t *bytes, size_t bytes_length) {
    return rl_unpack_slip(*table, rl_bytes_at(bytes, bytes_length), bytes_length);
}

/* Packs by the table at an address as `rl_pack_card` does. */
static inline RlPacked rl_pack_card_at(const RlTable *table, RlCardForm card, uint8_t *out, size_t out_length) {
    return rl_pack_card(*table, card, rl_output_at(out, out_length), out_length);
}

/* Packs by the table at an address as `rl_pack_slip` does. */
static inline RlPacked rl_pack_slip_at(const RlTable *table, RlSlipForm slip, uint8_t *out, size_t out_length) {
    return rl_pack_slip(*table, slip, rl_output_at(out, out_length), out_length);
}

/* Responds by the table at an address as `rl_respond` does. */
static inline RlResponse rl_respond_at(const RlTable *table, RlTally *records, size_t records_length, size_t editor,
                                       const uint8_t *card, size_t card_length, const uint8_t *slip,
                                       size_t slip_length, uint8_t *new_card, size_t new_card_length,
                                       uint8_t *changes, size_t changes_length, uint8_t *fired, size_t fired_length) {
    return rl_respond(*table, rl_records_at(records, records_length), records_length, editor,
                      rl_bytes_at(card, card_length), card_length, rl_bytes_at(slip, slip_length), slip_length,
                      rl_output_at(new_card, new_card_length), new_card_length, rl_output_at(changes, changes_length),
                      changes_length, rl_output_at(fired, fired_length), fired_length);
}

/* Responds by the table at an address as `rl_respond_by_marks` does. */
static inline RlResponse rl_respond_by_marks_at(const RlTable *table, RlTally *records, size_t records_length,
                                                size_t editor, const uint8_t *card, size_t card_length,
                                                const uint8_t *slip, size_t slip_length, uint8_t *new_card,
                                                size_t new_card_length, uint8_t *changes, size_t changes_length,
                                                uint8_t *fired, size_t fired_length) {
    return rl_respond_by_marks(*table, rl_records_at(records, records_length), records_length, editor,
                               rl_bytes_at(card, card_length), card_length, rl_bytes_at(slip, slip_length),
                               slip_length, rl_output_at(new_card, new_card_length), new_card_length,
                               rl_output_at(changes, changes_length), changes_length,
                               rl_output_at(fired, fired_length), fired_length);
}

/* Whether a rule, counted from 1, has its bit in a fired record; the record has a byte for each eight rules begun. */
static inline bool rl_has_fired(const uint8_t *fired, size_t rule) {
    return (fired[(rule - 1) / 8] >> (7 - (rule - 1) % 8) & 1) != 0;
}

static_assert(sizeof(RlPlace) == 8 && sizeof(RlSlot) == 132 && sizeof(RlLiteral) == 4, "layout");
static_assert(sizeof(RlAssignment) == 2 && sizeof(RlRule) == 46 && sizeof(RlTable) == 96228, "layout");
static_assert(sizeof(RlCardForm) == 40 && sizeof(RlSlipForm) == 72 && sizeof(RlTally) == 4, "layout");
static_assert(sizeof(RlRead) == 96248 && sizeof(RlName) == 24 && sizeof(RlCard) == 56 && sizeof(RlSlip) == 88, "layout");
static_assert(sizeof(RlPrinted) == 24 && sizeof(RlPacked) == 24 && sizeof(RlResponse) == 32, "layout");

#ifdef __cplusplus
}
#endif

#endif
