/* Times calls on fixed inputs: calls SIDE CALL FILE ROUNDS. It prints how many nanoseconds so many rounds over the inputs took, and how
 * many calls they were.
 *
 * SIDE is `face`, the proved code; `plain`, the plain C; or `nothing`, calls that return at once, which tell what the loop itself takes.
 * CALL is one of `calls` below. FILE has lines of hex digits: the text of a sheet, then the inputs, which are packets, for `sheet` texts, and for the
 * calls on streams the four numbers of an event each; a row of events leaves all streams free, so that it can begin again.
 * `calls check CALL FILE` calls the face and the plain C on each input, and says where they differ. */
#include "plain.h"

#include <stdio.h>
#include <stdlib.h>
#include <string.h>
#include <time.h>

#define INPUTS 128
#define LONGEST 1024 /* octets of an input: more than the longest sheet has */

/* ---- Sides */

struct side {
    const char *name;
    uint32_t (*sheet)(const uint8_t *, size_t, uint32_t *, size_t, uint8_t *, uint32_t *, size_t);
    uint32_t (*read)(const uint32_t *, size_t, const uint8_t *, size_t, uint32_t *, size_t);
    uint32_t (*write)(const uint32_t *, size_t, const uint32_t *, size_t, const uint8_t *, size_t, uint8_t *, size_t, uint32_t *, size_t);
    uint32_t (*field)(const uint8_t *, size_t, uint32_t, uint32_t *, size_t);
    uint32_t (*event)(const uint32_t *, size_t, const uint8_t *, const uint8_t *, size_t, uint32_t *, size_t);
    uint32_t (*seen)(const uint32_t *, size_t, const uint8_t *, size_t, uint32_t, uint8_t *, size_t);
    uint32_t (*work_out)(const uint32_t *, size_t, const uint8_t *, size_t, const uint32_t *, size_t, uint32_t *, size_t);
    uint32_t (*store)(const uint32_t *, size_t, const uint32_t *, size_t, uint8_t *, size_t, uint32_t *, size_t);
    uint32_t (*count)(const uint32_t *, size_t, const uint8_t *, size_t, uint32_t, uint32_t *, size_t);
    uint32_t (*packet)(const uint32_t *, size_t, const uint8_t *, uint32_t, const uint32_t *, size_t, uint8_t *, size_t, uint32_t *, size_t);
};

#define NOTHING(name, ...) \
    static uint32_t name(__VA_ARGS__) { return 0; }
#pragma GCC diagnostic ignored "-Wunused-parameter"
NOTHING(no_sheet, const uint8_t *a, size_t b, uint32_t *c, size_t d, uint8_t *e, uint32_t *f, size_t g)
NOTHING(no_read, const uint32_t *a, size_t b, const uint8_t *c, size_t d, uint32_t *e, size_t f)
NOTHING(no_write, const uint32_t *a, size_t b, const uint32_t *c, size_t d, const uint8_t *e, size_t f, uint8_t *g, size_t h, uint32_t *i, size_t j)
NOTHING(no_field, const uint8_t *a, size_t b, uint32_t c, uint32_t *d, size_t e)
NOTHING(no_event, const uint32_t *a, size_t b, const uint8_t *c, const uint8_t *d, size_t e, uint32_t *f, size_t g)
NOTHING(no_seen, const uint32_t *a, size_t b, const uint8_t *c, size_t d, uint32_t e, uint8_t *f, size_t g)
NOTHING(no_work_out, const uint32_t *a, size_t b, const uint8_t *c, size_t d, const uint32_t *e, size_t f, uint32_t *g, size_t h)
NOTHING(no_store, const uint32_t *a, size_t b, const uint32_t *c, size_t d, uint8_t *e, size_t f, uint32_t *g, size_t h)
NOTHING(no_count, const uint32_t *a, size_t b, const uint8_t *c, size_t d, uint32_t e, uint32_t *f, size_t g)
NOTHING(no_packet, const uint32_t *a, size_t b, const uint8_t *c, uint32_t d, const uint32_t *e, size_t f, uint8_t *g, size_t h, uint32_t *i, size_t j)

static const struct side face = { "face", mcv_sheet, mcv_read, mcv_write, mcv_field, mcv_event, mcv_seen, mcv_work_out, mcv_store, mcv_count, mcv_packet };
static const struct side plain = { "plain",     plain_sheet,    plain_read,  plain_write, plain_field, plain_event,
                                   plain_seen,  plain_work_out, plain_store, plain_count, plain_packet };
static const struct side nothing = { "nothing", no_sheet, no_read, no_write, no_field, no_event, no_seen, no_work_out, no_store, no_count, no_packet };
static const struct side *const sides[] = { &face, &plain, &nothing };

/* ---- Inputs */

/* What one call is made on; what is behind the octets is worked out from them before the calls. */
struct input {
    uint8_t octets[LONGEST];
    size_t count;
    uint32_t place, message[MCV_MESSAGE], event[MCV_EVENT], attempt[MCV_ATTEMPT], answer[MCV_ANSWER];
    uint8_t record[MCV_RECORD], records[MCV_RECORDS];
};

static uint32_t sheet[MCV_SHEET];
static uint8_t users[MCV_USERS];
static struct input inputs[INPUTS];
static size_t input_count;

/* What calls return and change. */
static struct out {
    uint32_t returned, sheet[MCV_SHEET], used, message[MCV_MESSAGE], written, field[MCV_FIELD], event[MCV_EVENT], attempt[MCV_ATTEMPT], answer[MCV_ANSWER], count;
    uint8_t users[MCV_USERS], packet[MCV_PACKET], record[MCV_RECORD], records[MCV_RECORDS];
} out;

static _Noreturn void stop(const char *what)
{
    fprintf(stderr, "calls: %s\n", what);
    exit(1);
}

/* The octets that a line writes in hex. */
static size_t octets_on(const char *line, uint8_t *octets)
{
    size_t count = 0;
    unsigned octet;
    while (count < LONGEST && sscanf(line + 2 * count, "%2x", &octet) == 1)
        octets[count++] = (uint8_t)octet;
    return count;
}

static void read_inputs(const char *path)
{
    static char line[2 * LONGEST + 2];
    static uint8_t text[LONGEST];
    uint32_t used;
    FILE *file = fopen(path, "r");
    if (file == NULL || fgets(line, sizeof line, file) == NULL)
        stop("there is no such file");
    if (face.sheet(text, octets_on(line, text), sheet, MCV_SHEET, users, &used, 1) != 0)
        stop("the sheet is refused");
    while (fgets(line, sizeof line, file) != NULL) {
        if (input_count == INPUTS)
            stop("there are too many inputs");
        inputs[input_count].count = octets_on(line, inputs[input_count].octets);
        input_count++;
    }
    fclose(file);
}

/* ---- Calls, each on one input */

static void call_sheet(const struct side *side, const struct input *in)
{
    out.returned = side->sheet(in->octets, in->count, out.sheet, MCV_SHEET, out.users, &out.used, 1);
}

static void call_read(const struct side *side, const struct input *in)
{
    out.returned = side->read(sheet, MCV_SHEET, in->octets, in->count, out.message, MCV_MESSAGE);
}

static void call_write(const struct side *side, const struct input *in)
{
    out.returned = side->write(sheet, MCV_SHEET, in->message, MCV_MESSAGE, in->octets, in->count, out.packet, MCV_PACKET, &out.written, 1);
}

static void call_field(const struct side *side, const struct input *in)
{
    out.returned = side->field(in->octets, in->count, in->place, out.field, MCV_FIELD);
}

static void call_event(const struct side *side, const struct input *in)
{
    out.returned = side->event(sheet, MCV_SHEET, users, in->octets, in->count, out.event, MCV_EVENT);
}

static void call_seen(const struct side *side, const struct input *in)
{
    out.returned = side->seen(sheet, MCV_SHEET, in->records, MCV_RECORDS, in->event[1], out.record, MCV_RECORD);
}

static void call_work_out(const struct side *side, const struct input *in)
{
    out.returned = side->work_out(sheet, MCV_SHEET, in->record, MCV_RECORD, in->event, MCV_EVENT, out.attempt, MCV_ATTEMPT);
}

/* The records change from one event to the next. */
static void call_store(const struct side *side, const struct input *in)
{
    out.returned = side->store(sheet, MCV_SHEET, in->attempt, MCV_ATTEMPT, out.records, MCV_RECORDS, out.answer, MCV_ANSWER);
}

static void call_count(const struct side *side, const struct input *in)
{
    out.returned = side->count(sheet, MCV_SHEET, in->records, MCV_RECORDS, in->event[1], &out.count, 1);
}

static void call_packet(const struct side *side, const struct input *in)
{
    out.returned = side->packet(sheet, MCV_SHEET, users, in->event[1], in->answer, MCV_ANSWER, out.packet, MCV_PACKET, &out.written, 1);
}

/* All three steps. */
static void call_steps(const struct side *side, const struct input *in)
{
    out.returned = side->seen(sheet, MCV_SHEET, out.records, MCV_RECORDS, in->event[1], out.record, MCV_RECORD);
    out.returned += side->work_out(sheet, MCV_SHEET, out.record, MCV_RECORD, in->event, MCV_EVENT, out.attempt, MCV_ATTEMPT);
    out.returned += side->store(sheet, MCV_SHEET, out.attempt, MCV_ATTEMPT, out.records, MCV_RECORDS, out.answer, MCV_ANSWER);
}

/* ---- What is worked out before the calls */

static void prepare_nothing(void)
{
}

/* The message of each packet. */
static void prepare_messages(void)
{
    for (size_t i = 0; i < input_count; i++)
        if (face.read(sheet, MCV_SHEET, inputs[i].octets, inputs[i].count, inputs[i].message, MCV_MESSAGE) != 0)
            stop("a packet to write is refused");
}

/* An input for each field of the packets, and for their ends; where a field is bad, that is the last. */
static void prepare_fields(void)
{
    static struct input packets[INPUTS];
    size_t packet_count = input_count;
    memcpy(packets, inputs, sizeof packets);
    input_count = 0;
    for (size_t i = 0; i < packet_count; i++) {
        uint32_t field[MCV_FIELD] = { 0, 0, 0, 12 }, refused;
        do {
            if (input_count == INPUTS)
                stop("there are too many fields");
            inputs[input_count] = packets[i];
            inputs[input_count].place = field[3];
            input_count++;
            refused = face.field(packets[i].octets, packets[i].count, field[3], field, MCV_FIELD);
        } while (refused == 0 && field[0] != MCV_NONE);
    }
}

/* The records before each event, the attempt and the answer. */
static void prepare_events(void)
{
    static const uint8_t free_records[MCV_RECORDS];
    uint8_t records[MCV_RECORDS] = { 0 };
    for (size_t i = 0; i < input_count; i++) {
        struct input *in = &inputs[i];
        for (size_t k = 0; k < MCV_EVENT; k++)
            in->event[k] = in->octets[k];
        memcpy(in->records, records, sizeof records);
        if (face.seen(sheet, MCV_SHEET, records, MCV_RECORDS, in->event[1], in->record, MCV_RECORD) != 0 ||
            face.work_out(sheet, MCV_SHEET, in->record, MCV_RECORD, in->event, MCV_EVENT, in->attempt, MCV_ATTEMPT) != 0 ||
            face.store(sheet, MCV_SHEET, in->attempt, MCV_ATTEMPT, records, MCV_RECORDS, in->answer, MCV_ANSWER) != 0)
            stop("an event is refused");
    }
    if (memcmp(records, free_records, sizeof records) != 0)
        stop("the events leave a stream that is not free");
}

static const struct call {
    const char *name;
    void (*prepare)(void);
    void (*call)(const struct side *side, const struct input *in);
} calls[] = {
    { "sheet", prepare_nothing, call_sheet },
    { "read", prepare_nothing, call_read },
    { "write", prepare_messages, call_write },
    { "field", prepare_fields, call_field },
    { "event", prepare_nothing, call_event },
    { "seen", prepare_events, call_seen },
    { "work_out", prepare_events, call_work_out },
    { "store", prepare_events, call_store },
    { "count", prepare_events, call_count },
    { "packet", prepare_events, call_packet },
    { "steps", prepare_events, call_steps },
};

static const struct call *call_named(const char *name)
{
    for (size_t i = 0; i < sizeof calls / sizeof calls[0]; i++)
        if (strcmp(calls[i].name, name) == 0)
            return &calls[i];
    stop("there is no such call");
}

static const struct side *side_named(const char *name)
{
    for (size_t i = 0; i < sizeof sides / sizeof sides[0]; i++)
        if (strcmp(sides[i]->name, name) == 0)
            return sides[i];
    stop("there is no such side");
}

/* Calls both sides on each input, one after the other from the same memory, and stops where they leave something else there. */
static void check(const struct call *call)
{
    memset(&out, 0xA5, sizeof out);
    memset(out.records, 0, sizeof out.records);
    for (size_t i = 0; i < input_count; i++) {
        struct out before, left;
        memcpy(&before, &out, sizeof out);
        call->call(&face, &inputs[i]);
        memcpy(&left, &out, sizeof out);
        memcpy(&out, &before, sizeof out);
        call->call(&plain, &inputs[i]);
        if (memcmp(&left, &out, sizeof out) != 0) {
            fprintf(stderr, "calls: %s of input %zu differs; the face returned %u, the plain C %u\n", call->name, i, left.returned, out.returned);
            exit(1);
        }
    }
}

static void run(const struct call *call, const struct side *side, unsigned long long rounds)
{
    for (unsigned long long n = 0; n < rounds; n++)
        for (size_t i = 0; i < input_count; i++)
            call->call(side, &inputs[i]);
}

int main(int words, char **word)
{
    const struct call *call;
    const struct side *side;
    unsigned long long rounds;
    struct timespec begun, ended;
    if (words != 4 && words != 5)
        stop("usage: calls SIDE CALL FILE ROUNDS, or calls check CALL FILE");
    call = call_named(word[2]);
    read_inputs(word[3]);
    call->prepare();
    if (words == 4) {
        check(call);
        return 0;
    }
    side = side_named(word[1]);
    rounds = strtoull(word[4], NULL, 10);
    clock_gettime(CLOCK_MONOTONIC, &begun);
    run(call, side, rounds);
    clock_gettime(CLOCK_MONOTONIC, &ended);
    printf("%lld %llu\n", (ended.tv_sec - begun.tv_sec) * 1000000000LL + ended.tv_nsec - begun.tv_nsec, rounds * input_count);
    return 0;
}
