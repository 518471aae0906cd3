/* Many threads that read one rule text and respond to one card and slip at the same time, each with a table of records of its own: its exit status is 1 where one of them comes to something else than the others. */
#include <rl.h>

#include <pthread.h>
#include <stdio.h>
#include <string.h>

enum { THREADS = 16, CALLS = 200 };

static const char rules[] = "SLOT x {0,1}; SLOT y {0,1}; SLOT z {0,1}; WHEN x *= 1 IF y |= 0 THEN z := 1; WHEN z *= 1 IF y |= 0 THEN y := 1;";
static const uint8_t card[] = {0x0C, 0x44, 0x40}, slip[] = {0x04, 0x04};
static const uint8_t new_cards[] = {0x0C, 0x88, 0x80}, all_changes[] = {0x0C, 0x04, 0x12, 0x11, 0x00};

/* What a thread has of its own: its editor, its reading, its records, and how many of its calls came to something else than case C. */
typedef struct {
    size_t editor;
    RlRead reading;
    RlTally records[RL_EDITORS];
    size_t wrong;
} Own;

static Own owns[THREADS];

/* Reads and responds many times, every third time to a slip that is refused. */
static void *work(void *with) {
    Own *own = (Own *)with;
    for (size_t call = 0; call < CALLS; call++) {
        uint8_t new_card[RL_CARD_BYTES], changes[RL_SLIP_BYTES], fired[RL_FIRED_BYTES];
        bool refused = call % 3 == 2;
        uint8_t read = rl_read_at(&own->reading, (const uint8_t *)rules, strlen(rules));
        RlResponse response = (call % 2 ? rl_respond_by_marks_at : rl_respond_at)(
            &own->reading.table, own->records, RL_EDITORS, own->editor, card, sizeof card, slip, refused ? 1 : sizeof slip,
            new_card, sizeof new_card, changes, sizeof changes, fired, sizeof fired);
        bool right = refused ? response.number == RL_SLIP_LENGTH
                             : response.number == RL_ACCEPTED && response.fired == 2 && fired[0] == 0xC0 &&
                                   response.length == sizeof all_changes && !memcmp(changes, all_changes, sizeof all_changes) &&
                                   !memcmp(new_card, new_cards, sizeof new_cards);
        own->wrong += read != RL_ACCEPTED || !right;
    }
    return NULL;
}

int main(void) {
    pthread_t threads[THREADS];
    int wrong = 0;
    for (size_t at = 0; at < THREADS; at++) {
        owns[at].editor = at + 1;
        pthread_create(&threads[at], NULL, work, &owns[at]);
    }
    for (size_t at = 0; at < THREADS; at++) {
        pthread_join(threads[at], NULL);
        for (size_t editor = 0; editor < RL_EDITORS; editor++) {
            RlTally record = owns[at].records[editor];
            bool own = editor == at;
            wrong |= record.answered != (own ? CALLS - CALLS / 3 : 0) || record.refused != (own ? CALLS / 3 : 0);
        }
        wrong |= owns[at].wrong != 0;
    }
    if (wrong) {
        puts("threads came to different results");
    }
    return wrong;
}
