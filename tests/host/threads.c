/* A packet routine and a timer routine, two threads over the same records: threads SEED [STORES [spoil]].
 *
 * The lock is held around each mcv_seen and around each mcv_store alone. Each store that took is written down with its event and its
 * answer. Afterwards those events are run one after another from eight Free records: the records and every answer must be the same.
 * Exit status 1 where something differs, where no store was stale and where one of the eight answers was never given (some thousand
 * stores give all); `spoil` changes an answer that was written down. */
#include "coyametzi.h"
#include "lent.h"
#include "posix.h"

static const char text[] = "server=1000\nlimit=2\nrequest=1\nresponse=2\nendrequest=3\nendresponse=4\ntxend=5\ntxendresponse=6\nack=7\n"
                           "resultid=20\nseats=4\nseat=1,sip:driver\nseat=2,sip:rear\nseat=3,sip:roof-camera\nseat=4,sip:x\n";

/* ---- What the routines share */

static uint32_t *sheet; /* read-only once it is read, as the User IDs are */
static uint8_t *users;
static uint8_t *records;
static pthread_mutex_t lock = PTHREAD_MUTEX_INITIALIZER;

struct taken {
    uint32_t event[MCV_EVENT], answer[MCV_ANSWER];
};
static struct taken *written_down;
static unsigned long stores_left, number_taken;

static void expect(int holds, const char *what)
{
    if (!holds)
        stop("threads", what);
}

/* ---- A routine */

/* An event and the attempt worked out for it. */
struct tried {
    uint32_t *event, *attempt;
};

struct routine {
    void (*next_event)(struct routine *);
    uint64_t chance;
    unsigned long turns, stale, old_stores, old_stale; /* old: of the attempt kept */
    struct tried now, old;
    uint32_t *message, *written, *answer;
    uint8_t *record, *out;
    struct place packet;
};

static struct tried lent_tried(void)
{
    struct tried lent = { new_numbers(MCV_EVENT), new_numbers(MCV_ATTEMPT) };
    return lent;
}

static struct routine new_routine(void (*next_event)(struct routine *), uint64_t seed)
{
    struct routine r = { .next_event = next_event, .chance = seed, .now = lent_tried(), .old = lent_tried() };
    r.message = new_numbers(MCV_MESSAGE), r.written = new_numbers(1), r.answer = new_numbers(MCV_ANSWER);
    r.record = new_octets(MCV_RECORD), r.out = new_octets(MCV_PACKET), r.packet = new_place();
    return r;
}

/* A pseudo-random number below `end` (splitmix64). */
static uint32_t chance(struct routine *r, uint32_t end)
{
    uint64_t z = r->chance += UINT64_C(0x9E3779B97F4A7C15);
    z = (z ^ z >> 30) * UINT64_C(0xBF58476D1CE4E5B9);
    z = (z ^ z >> 27) * UINT64_C(0x94D049BB133111EB);
    return (uint32_t)((z ^ z >> 31) % end);
}

/* ---- The events */

static void set_event(uint32_t *event, uint32_t what, uint32_t stream, uint32_t by, uint32_t ack)
{
    event[0] = what, event[1] = stream, event[2] = by, event[3] = ack;
}

static uint32_t length_of_user(uint32_t seat)
{
    uint32_t length = 0;
    while (length < 60 && users[60 * seat + length] != 0)
        length++;
    return length;
}

static uint32_t ssrc(uint32_t seat) { return sheet[11 + seat]; }

/* A request, an end or an end response comes in as a packet. */
static void packet_event(struct routine *r)
{
    static const uint32_t kinds[] = { MCV_RECEIVE_REQUEST, MCV_RECEIVE_REQUEST, MCV_RECEPTION_END_REQUEST, MCV_TRANSMISSION_END_RESPONSE };
    uint32_t kind = kinds[chance(r, 4)], stream = chance(r, sheet[10]), by = chance(r, sheet[10]), ack = chance(r, 2);
    uint32_t meant[MCV_EVENT], returned;
    const uint8_t *packet;

    for (int i = 0; i < MCV_MESSAGE; i++)
        r->message[i] = i < 7 ? 0 : MCV_NONE;
    r->message[0] = kind, r->message[1] = ssrc(kind == MCV_TRANSMISSION_END_RESPONSE ? stream : by), r->message[2] = ack;
    if (kind == MCV_RECEIVE_REQUEST)
        r->message[3] = 60 * by, r->message[4] = length_of_user(by);
    if (kind != MCV_TRANSMISSION_END_RESPONSE)
        r->message[5] = 60 * stream, r->message[6] = length_of_user(stream);
    returned = mcv_write(sheet, MCV_SHEET, r->message, MCV_MESSAGE, users, MCV_USERS, r->out, MCV_PACKET, r->written, 1);
    expect(returned == 0, "a packet is not written");

    packet = lend(&r->packet, r->out, *r->written);
    returned = mcv_event(sheet, MCV_SHEET, users, packet, *r->written, r->now.event, MCV_EVENT);
    expect(returned == 0, "a packet makes no event");
    unchanged(&r->packet, "mcv_event");
    if (kind == MCV_TRANSMISSION_END_RESPONSE)
        set_event(meant, MCV_END_RESPONSE, stream, 0, ack);
    else
        set_event(meant, kind == MCV_RECEIVE_REQUEST ? MCV_REQUEST : MCV_END, stream, by, 0);
    expect(memcmp(r->now.event, meant, sizeof meant) == 0, "a packet makes another event");
}

static void timer_event(struct routine *r)
{
    static const uint32_t whats[] = { MCV_OPEN, MCV_OPEN, MCV_OPEN, MCV_OPEN, MCV_OPEN, MCV_T11, MCV_T11, MCV_RELEASE };
    set_event(r->now.event, whats[chance(r, 8)], chance(r, sheet[10]), 0, 0);
}

/* ---- The three steps */

static void see_and_work_out(struct routine *r)
{
    uint32_t returned;
    pthread_mutex_lock(&lock);
    returned = mcv_seen(sheet, MCV_SHEET, records, MCV_RECORDS, r->now.event[1], r->record, MCV_RECORD);
    pthread_mutex_unlock(&lock);
    expect(returned == 0, "a record is not read");
    returned = mcv_work_out(sheet, MCV_SHEET, r->record, MCV_RECORD, r->now.event, MCV_EVENT, r->now.attempt, MCV_ATTEMPT);
    expect(returned == 0, "an event is not worked out");
}

enum came_of_it { TOOK, STALE, OVER };

/* Stores, and writes down what took, while there are stores left to make. */
static enum came_of_it store(struct routine *r, const struct tried *of)
{
    const uint32_t *attempt = of->attempt;
    const uint8_t *record = records + MCV_RECORD * attempt[0];
    uint32_t returned;
    int as_seen;

    pthread_mutex_lock(&lock);
    if (stores_left == 0) {
        pthread_mutex_unlock(&lock);
        return OVER;
    }
    stores_left--;
    as_seen = record[0] == attempt[1] && record[1] == attempt[2];
    returned = mcv_store(sheet, MCV_SHEET, attempt, MCV_ATTEMPT, records, MCV_RECORDS, r->answer, MCV_ANSWER);
    if (returned == 0) {
        struct taken *line = &written_down[number_taken++];
        memcpy(line->event, of->event, sizeof line->event);
        memcpy(line->answer, r->answer, sizeof line->answer);
    }
    pthread_mutex_unlock(&lock);

    expect(returned == (as_seen ? 0 : MCV_STALE), "a store is stale and should take, or the other way round");
    expect(!as_seen || memcmp(r->answer, attempt + MCV_ATTEMPT - MCV_ANSWER, MCV_ANSWER * 4) == 0, "a store gives another answer");
    r->stale += !as_seen;
    return as_seen ? TOOK : STALE;
}

/* What the answer sends is written once its store took. */
static void write_packet(struct routine *r)
{
    uint32_t returned = mcv_packet(sheet, MCV_SHEET, users, r->now.event[1], r->answer, MCV_ANSWER, r->out, MCV_PACKET, r->written, 1);
    expect(returned == 0 && (*r->written > 0) == (r->answer[1] != 0), "an answer's packet is not written");
}

static void *run(void *with)
{
    struct routine *r = with;
    for (;;) {
        enum came_of_it came;
        r->next_event(r);
        do {
            see_and_work_out(r);
            if (chance(r, 4) == 0)
                sched_yield();
            came = store(r, &r->now);
        } while (came == STALE);
        if (came == OVER)
            return NULL;
        write_packet(r);

        /* Every eighth attempt is kept, and the one kept is handed in once more now and then. */
        if (r->turns++ % 8 == 0) {
            memcpy(r->old.event, r->now.event, MCV_EVENT * 4);
            memcpy(r->old.attempt, r->now.attempt, MCV_ATTEMPT * 4);
        }
        if (chance(r, 8) == 0) {
            came = store(r, &r->old);
            r->old_stores += came != OVER;
            r->old_stale += came == STALE;
        }
    }
}

/* ---- The same events, one after another */

static uint32_t ones(uint8_t octet)
{
    uint32_t number = 0;
    for (int i = 0; i < 8; i++)
        number += octet >> i & 1;
    return number;
}

static void run_alone(void)
{
    struct routine alone = new_routine(NULL, 0);
    uint8_t *left_by_both = records;
    uint32_t *count = new_numbers(1), returned;

    records = new_octets(MCV_RECORDS);
    for (unsigned long i = 0; i < number_taken; i++) {
        memcpy(alone.now.event, written_down[i].event, MCV_EVENT * 4);
        see_and_work_out(&alone);
        returned = mcv_store(sheet, MCV_SHEET, alone.now.attempt, MCV_ATTEMPT, records, MCV_RECORDS, alone.answer, MCV_ANSWER);
        expect(returned == 0, "a store is refused");
        expect(memcmp(alone.answer, written_down[i].answer, MCV_ANSWER * 4) == 0, "an answer differs");
    }
    expect(memcmp(records, left_by_both, MCV_RECORDS) == 0, "a record differs");
    for (uint32_t stream = 0; stream < sheet[10]; stream++) {
        expect(mcv_count(sheet, MCV_SHEET, left_by_both, MCV_RECORDS, stream, count, 1) == 0, "a count is refused");
        expect(*count == ones(left_by_both[MCV_RECORD * stream + 1]), "a count differs");
    }
}

/* Prints how many stores took and were stale, and how often each answer was given: none may be missing. */
static void tally(const struct routine *packets, const struct routine *timers, unsigned long stores)
{
    static const char *const names[] = { "grants", "rejects", "end responses", "end requests", "freed", "opened", "released", "discarded" };
    unsigned long answers[MCV_DISCARDED] = { 0 };
    for (unsigned long i = 0; i < number_taken; i++) {
        uint32_t number = written_down[i].answer[0];
        expect(number >= 1 && number <= MCV_DISCARDED, "there is no such answer");
        answers[number - 1]++;
    }
    printf("%lu stores: %lu taken, %lu stale by themselves, %lu of %lu old ones stale;", stores, number_taken,
           packets->stale + timers->stale - packets->old_stale - timers->old_stale, packets->old_stale + timers->old_stale,
           packets->old_stores + timers->old_stores);
    for (int i = 0; i < MCV_DISCARDED; i++)
        printf("%s %lu %s", i == 0 ? "" : ",", answers[i], names[i]);
    printf("\n");
    for (int i = 0; i < MCV_DISCARDED; i++)
        expect(answers[i] > 0, "an answer was never given: too few stores");
    expect(number_taken + packets->stale + timers->stale == stores, "the numbers of stores do not add up");
    expect(packets->stale + timers->stale > 0, "no store was stale");
}

int main(int words, char **word)
{
    uint64_t seed = words > 1 ? strtoul(word[1], NULL, 10) : 1;
    unsigned long stores = words > 2 ? strtoul(word[2], NULL, 10) : 1000000;
    struct place text_place = new_place();
    const uint8_t *lent_text = lend(&text_place, text, sizeof text - 1);
    struct routine packets, timers;
    pthread_t one, other;

    sheet = new_numbers(MCV_SHEET), users = new_octets(MCV_USERS), records = new_octets(MCV_RECORDS);
    expect(mcv_sheet(lent_text, sizeof text - 1, sheet, MCV_SHEET, users, new_numbers(1), 1) == 0, "the sheet is refused");
    seal(sheet), seal(users);
    written_down = mapped((stores + 1) * sizeof *written_down);
    stores_left = stores;
    packets = new_routine(packet_event, 2 * seed);
    timers = new_routine(timer_event, 2 * seed + 1);

    expect(pthread_create(&one, NULL, run, &packets) == 0 && pthread_create(&other, NULL, run, &timers) == 0, "no thread");
    expect(pthread_join(one, NULL) == 0 && pthread_join(other, NULL) == 0, "a thread does not end");
    expect(number_taken > 0, "no store took");
    if (words > 3 && strcmp(word[3], "spoil") == 0)
        written_down[number_taken / 2].answer[5] ^= MCV_TIMER_T6;
    tally(&packets, &timers, stores);
    run_alone();
    return 0;
}
