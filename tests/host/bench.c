/* Replays document 01's bench cases P1 to P13 and its sheet edges through the face, one line for each: what came of it.
 * What the document says is the data below; exit status 1 where an answer differs. `bench spoil` expects something false of P6. */
#include "coyametzi.h"
#include "lent.h"
#include "posix.h"

/* ---- What document 01 says */

#define S(limit, ack, resultid)                                                                                                            \
    "server=1000\nlimit=" limit "\nrequest=1\nresponse=2\nendrequest=3\nendresponse=4\ntxend=5\ntxendresponse=6\nack=" ack "\nresultid="   \
    resultid "\nseats=3\nseat=1,sip:a\nseat=2,sip:b\nseat=3,sip:c\n"

static const uint32_t numbers_of_s[MCV_SHEET] = { 1000, 1, 1, 2, 3, 4, 5, 6, 7, 20, 3, 1, 2, 3 };
static const char users_of_s[MCV_USERS] = { [0] = 's', 'i', 'p', ':', 'a', [60] = 's', 'i', 'p', ':', 'b', [120] = 's', 'i', 'p', ':', 'c' };
static const uint32_t octets_of_s = 157;

static const struct edge {
    const char *name, *text;
    uint32_t line;
} edges[] = {
    { "limit=0", S("0", "7", "20"), 2 },
    { "limit=9", S("9", "7", "20"), 2 },
    { "ack=6", S("1", "6", "20"), 9 },
    { "resultid=14", S("1", "7", "14"), 10 },
};

/* What the answers below send, P1, P2 and P4 among it. */
#define GRANT_PACKET "82CC0003000003E84D43563114020001"
#define CAUSE_0_PACKET "82CC0004000003E84D4356311402000002020000"
#define CAUSE_1_PACKET "82CC0004000003E84D4356311402000002020001"
#define END_REQUEST_PACKET "85CC0003000003E84D43563202020008"

/* A packet that makes no event is refused with 8. */
#define NO_EVENT { 0, 0, 0, 0 }

static const struct packet {
    const char *name, *hex;
    uint32_t message[MCV_MESSAGE], event[MCV_EVENT];
} packets[] = {
    { "P1 grant", GRANT_PACKET, { 2, 1000, 0, 0, 0, 0, 0, 1, MCV_NONE, MCV_NONE, MCV_NONE, MCV_NONE }, NO_EVENT },
    { "P2 rejection, cause 0", CAUSE_0_PACKET,
      { 2, 1000, 0, 0, 0, 0, 0, 0, 0, MCV_NONE, MCV_NONE, MCV_NONE }, NO_EVENT },
    { "P3 request of seat 1 for seat 0", "81CC0006000000024D43563006057369703A620006057369703A6100",
      { 1, 2, 0, 14, 5, 22, 5, MCV_NONE, MCV_NONE, MCV_NONE, MCV_NONE, MCV_NONE }, { MCV_REQUEST, 0, 1, 0 } },
    { "P4 end request for cause 8", END_REQUEST_PACKET,
      { 5, 1000, 0, 0, 0, 0, 0, MCV_NONE, 8, MCV_NONE, MCV_NONE, MCV_NONE }, NO_EVENT },
    { "P5 Ack", "87CC0004000003E84D4356320A0200020C020100",
      { 7, 1000, 0, 0, 0, 0, 0, MCV_NONE, MCV_NONE, MCV_NONE, 2, 1 }, NO_EVENT },
};

#define GRANT(stop, start) { MCV_GRANTED, MCV_RECEIVE_RESPONSE, 1, MCV_NONE, stop, start }
#define REJECT(cause) { MCV_REJECTED, MCV_RECEIVE_RESPONSE, 0, cause, 0, 0 }
#define END_REQUEST { MCV_END_REQUESTED, MCV_TRANSMISSION_END_REQUEST, MCV_NONE, 8, 0, MCV_TIMER_T3 }
/* An event on stream 0. */
struct step {
    const char *name;
    uint8_t before[MCV_RECORD];
    uint32_t event[MCV_EVENT];
    uint8_t after[MCV_RECORD];
    uint32_t answer[MCV_ANSWER], count;
    const char *sends;
};

static struct step steps[] = {
    { "P6", { MCV_IDLE, 0 }, { MCV_REQUEST, 0, 1, 0 },
      { MCV_WATCHED, 2 }, GRANT(MCV_TIMER_T5 + MCV_TIMER_T11, MCV_TIMER_T6), 1, GRANT_PACKET },
    { "P7", { MCV_WATCHED, 2 }, { MCV_REQUEST, 0, 1, 0 }, { MCV_WATCHED, 2 }, GRANT(0, 0), 1, GRANT_PACKET },
    { "P8", { MCV_WATCHED, 2 }, { MCV_REQUEST, 0, 2, 0 }, { MCV_WATCHED, 2 }, REJECT(0), 1, CAUSE_0_PACKET },
    { "P8 limit=2", { MCV_WATCHED, 2 }, { MCV_REQUEST, 0, 2, 0 },
      { MCV_WATCHED, 6 }, GRANT(MCV_TIMER_T5, MCV_TIMER_T6), 2, GRANT_PACKET },
    { "P9", { MCV_IDLE, 0 }, { MCV_REQUEST, 0, 0, 0 }, { MCV_IDLE, 0 }, REJECT(1), 0, CAUSE_1_PACKET },
    { "P10", { MCV_WATCHED, 2 }, { MCV_T11, 0, 0, 0 },
      { MCV_WATCHED, 2 }, { MCV_DISCARDED, 0, MCV_NONE, MCV_NONE, 0, 0 }, 1, "" },
    { "P11", { MCV_IDLE, 0 }, { MCV_T11, 0, 0, 0 }, { MCV_ENDING, 0 }, END_REQUEST, 0, END_REQUEST_PACKET },
    { "P12", { MCV_WATCHED, 2 }, { MCV_END, 0, 1, 0 },
      { MCV_IDLE, 0 }, { MCV_ENDED, MCV_RECEPTION_END_RESPONSE, MCV_NONE, MCV_NONE, 0, MCV_TIMER_T11 }, 0,
      "84CC0004000003E84D43563206057369703A6100" },
};

static const uint32_t late[MCV_EVENT] = { MCV_REQUEST, 0, 1, 0 };
static const uint8_t idle[MCV_RECORD] = { MCV_IDLE, 0 };
static const struct step stored_between = { "P13", { MCV_IDLE, 0 }, { MCV_T11, 0, 0, 0 }, { MCV_ENDING, 0 }, END_REQUEST, 0, END_REQUEST_PACKET };
static const struct step again = { "P13", { MCV_ENDING, 0 }, { MCV_REQUEST, 0, 1, 0 }, { MCV_ENDING, 0 }, REJECT(1), 0, CAUSE_1_PACKET };

/* ---- What is lent */

static struct place text_place, packet_place, out_place;
static uint32_t *sheet, *sheet_of_two, *sheet_refused, *used, *message, *written, *event, *attempt, *late_attempt, *answer, *count;
static uint8_t *users, *users_refused, *records, *record;

static void lend_all(void)
{
    text_place = new_place(), packet_place = new_place(), out_place = new_place();
    sheet = new_numbers(MCV_SHEET), sheet_of_two = new_numbers(MCV_SHEET), sheet_refused = new_numbers(MCV_SHEET);
    users = new_octets(MCV_USERS), users_refused = new_octets(MCV_USERS), used = new_numbers(1);
    message = new_numbers(MCV_MESSAGE), written = new_numbers(1), event = new_numbers(MCV_EVENT);
    records = new_octets(MCV_RECORDS), record = new_octets(MCV_RECORD), count = new_numbers(1);
    attempt = new_numbers(MCV_ATTEMPT), late_attempt = new_numbers(MCV_ATTEMPT), answer = new_numbers(MCV_ANSWER);
}

/* ---- What is printed */

static int differ;

/* Notes where something is not as document 01 says. */
static void expect(int holds, const char *name, const char *what)
{
    if (!holds) {
        dprintf(2, "%s: %s differs\n", name, what);
        differ = 1;
    }
}

static void print_hex(const uint8_t *octets, size_t number)
{
    for (size_t i = 0; i < number; i++)
        printf("%02X", octets[i]);
}

/* A number, or - where there is none. */
static void print_value(const char *name, uint32_t value)
{
    if (value == MCV_NONE)
        printf(" %s=-", name);
    else
        printf(" %s=%u", name, value);
}

static void print_name(const char *name, const uint8_t *packet, const uint32_t *place_and_length)
{
    if (place_and_length[1] == 0)
        printf(" %s=-", name);
    else
        printf(" %s=%.*s", name, (int)place_and_length[1], (const char *)packet + place_and_length[0]);
}

static void print_record(const uint8_t *of)
{
    static const char *const phases[] = { "Free", "Idle", "Watched", "Ending" };
    printf("%s %02X", of[0] < 4 ? phases[of[0]] : "?", of[1]);
}

static void print_event(const uint32_t *of)
{
    static const char *const names[] = { "?", "request by", "end by", "open", "T11", "end response", "release" };
    printf("%s", of[0] < 7 ? names[of[0]] : "?");
    if (of[0] <= MCV_END)
        printf(" %u", of[2]);
}

static void print_timers(const char *what, uint32_t timers)
{
    static const char *const names[] = { " T3", " T5", " T6", " T11" };
    if (timers != 0)
        printf(", %s", what);
    for (int i = 0; i < 4; i++)
        if (timers >> i & 1)
            printf("%s", names[i]);
}

static void print_answer(const uint32_t *of)
{
    static const char *const names[] = { "?", "grant", "reject", "end response", "end request", "freed", "opened", "released", "discarded" };
    printf("%s", of[0] < 9 ? names[of[0]] : "?");
    if (of[3] != MCV_NONE)
        printf(" cause %u", of[3]);
    print_timers("stop", of[4]);
    print_timers("start", of[5]);
}

/* ---- The cases */

static size_t octets_of(const char *hex, uint8_t *octets)
{
    size_t number = strlen(hex) / 2;
    for (size_t i = 0; i < number; i++) {
        char two[3] = { hex[2 * i], hex[2 * i + 1], 0 };
        octets[i] = (uint8_t)strtoul(two, NULL, 16);
    }
    return number;
}

static uint32_t read_sheet(const char *text, uint32_t *to, uint8_t *users_to)
{
    const uint8_t *lent = lend(&text_place, text, strlen(text));
    uint32_t returned = mcv_sheet(lent, strlen(text), to, MCV_SHEET, users_to, used, 1);
    unchanged(&text_place, "mcv_sheet");
    return returned;
}

static void replay_sheet(void)
{
    expect(read_sheet(S("2", "7", "20"), sheet_of_two, users) == 0, "S limit=2", "the sheet");
    expect(read_sheet(S("1", "7", "20"), sheet, users) == 0, "S", "the sheet");
    expect(memcmp(sheet, numbers_of_s, sizeof numbers_of_s) == 0, "S", "a number");
    expect(memcmp(users, users_of_s, MCV_USERS) == 0, "S", "a User ID");
    expect(*used == octets_of_s, "S", "the number of octets used");
    printf("S");
    for (int i = 0; i < 11; i++)
        printf(" %u", sheet[i]);
    printf(", seats");
    for (int i = 0; i < 3; i++)
        printf(" %u,%.60s", sheet[11 + i], (const char *)users + 60 * i);
    printf(", %u octets used\n", *used);
    seal(sheet), seal(sheet_of_two), seal(users);
}

static void replay_edge(const struct edge *edge)
{
    static const uint32_t no_sheet[MCV_SHEET];
    static const uint8_t no_users[MCV_USERS];
    uint32_t returned = read_sheet(edge->text, sheet_refused, users_refused);
    expect(returned == MCV_BAD_SHEET + 256 * edge->line, edge->name, "the refusal");
    expect(memcmp(sheet_refused, no_sheet, sizeof no_sheet) == 0, edge->name, "the sheet that a refusal left");
    expect(memcmp(users_refused, no_users, sizeof no_users) == 0 && *used == octets_of_s, edge->name, "what a refusal left");
    printf("%s: refused=%u line=%u\n", edge->name, MCV_REFUSAL(returned), MCV_LINE(returned));
}

static void replay_packet(const struct packet *of)
{
    static const uint8_t blank[MCV_PACKET];
    static const uint32_t no_event[MCV_EVENT] = NO_EVENT;
    uint8_t octets[MCV_PACKET];
    size_t number = octets_of(of->hex, octets);
    const uint8_t *packet = lend(&packet_place, octets, number);
    uint8_t *out = lend(&out_place, blank, number);
    uint32_t returned;

    expect(mcv_read(sheet, MCV_SHEET, packet, number, message, MCV_MESSAGE) == 0, of->name, "reading");
    expect(memcmp(message, of->message, sizeof of->message) == 0, of->name, "the message");
    printf("%s %s: kind=%u ssrc=%u ack=%u", of->name, of->hex, message[0], message[1], message[2]);
    print_name("user", packet, message + 3);
    print_name("named", packet, message + 5);
    print_value("result", message[7]);
    print_value("cause", message[8]);
    print_value("indicator", message[9]);
    print_value("origin", message[10]);
    print_value("about", message[11]);

    returned = mcv_write(sheet, MCV_SHEET, message, MCV_MESSAGE, packet, number, out, number, written, 1);
    expect(returned == 0 && *written == number && memcmp(out, octets, number) == 0, of->name, "the packet written");
    printf(", written again %s", memcmp(out, packet, number) == 0 ? "the same" : "another");

    memset(event, 0, MCV_EVENT * 4);
    returned = mcv_event(sheet, MCV_SHEET, users, packet, number, event, MCV_EVENT);
    expect(returned == (memcmp(of->event, no_event, sizeof no_event) == 0 ? MCV_NO_EVENT : 0), of->name, "making an event");
    expect(memcmp(event, of->event, sizeof of->event) == 0, of->name, "the event");
    unchanged(&packet_place, of->name);
    printf(", event ");
    if (returned != 0)
        printf("refused=%u\n", returned);
    else {
        print_event(event);
        printf(" on stream %u\n", event[1]);
    }
}

/* Stream 0's record; the others are Free. */
static void put_record(const uint8_t *of)
{
    memset(records, 0, MCV_RECORDS);
    memcpy(records, of, MCV_RECORD);
}

/* Whether stream 0 has this record and every other one is Free. */
static int has_record(const uint8_t *of)
{
    static const uint8_t others[MCV_RECORDS - MCV_RECORD];
    return memcmp(records, of, MCV_RECORD) == 0 && memcmp(records + MCV_RECORD, others, sizeof others) == 0;
}

/* Reads stream 0's record and works out an event on it; the record is still what it was. */
static void try_event(const char *name, const uint32_t *by, const uint8_t *before, const uint32_t *of, uint32_t *to)
{
    memcpy(event, of, MCV_EVENT * 4);
    expect(mcv_seen(by, MCV_SHEET, records, MCV_RECORDS, 0, record, MCV_RECORD) == 0, name, "reading");
    expect(memcmp(record, before, MCV_RECORD) == 0, name, "the record read");
    expect(mcv_work_out(by, MCV_SHEET, record, MCV_RECORD, event, MCV_EVENT, to, MCV_ATTEMPT) == 0, name, "working out");
    expect(has_record(before) && memcmp(event, of, MCV_EVENT * 4) == 0, name, "what was only read");
    printf("%s ", name);
    print_record(record);
    printf(", ");
    print_event(event);
}

/* Reads, works out, stores and counts, and writes the packet. */
static void replay_step(const struct step *step, const uint32_t *by)
{
    uint8_t octets[MCV_PACKET], blank[MCV_PACKET];
    size_t number = octets_of(step->sends, octets);
    uint8_t *out;

    try_event(step->name, by, step->before, step->event, attempt);
    expect(mcv_store(by, MCV_SHEET, attempt, MCV_ATTEMPT, records, MCV_RECORDS, answer, MCV_ANSWER) == 0, step->name, "storing");
    expect(has_record(step->after), step->name, "a record");
    expect(memcmp(answer, step->answer, sizeof step->answer) == 0, step->name, "the answer");
    printf(": ");
    print_record(records);
    printf(", ");
    print_answer(answer);

    expect(mcv_count(by, MCV_SHEET, records, MCV_RECORDS, 0, count, 1) == 0 && *count == step->count, step->name, "the count");
    printf(", count %u", *count);

    memset(blank, 0xEE, sizeof blank);
    out = lend(&out_place, blank, MCV_PACKET);
    expect(mcv_packet(by, MCV_SHEET, users, 0, answer, MCV_ANSWER, out, MCV_PACKET, written, 1) == 0, step->name, "making a packet");
    expect(*written == number && memcmp(out, octets, number) == 0, step->name, "the packet");
    expect(memcmp(out + number, blank, MCV_PACKET - number) == 0, step->name, "what is past the packet");
    printf(", sends ");
    if (*written == 0)
        printf("nothing");
    else
        print_hex(out, *written <= MCV_PACKET ? *written : 0);
    printf("\n");
}

static void replay_stale(void)
{
    uint32_t returned;
    put_record(idle);
    try_event("P13", sheet, idle, late, late_attempt);
    printf(": worked out, not stored\n");
    replay_step(&stored_between, sheet);
    returned = mcv_store(sheet, MCV_SHEET, late_attempt, MCV_ATTEMPT, records, MCV_RECORDS, answer, MCV_ANSWER);
    expect(returned == MCV_STALE && has_record(stored_between.after), "P13", "the stale store");
    expect(memcmp(answer, stored_between.answer, sizeof stored_between.answer) == 0, "P13", "what a refusal left");
    printf("P13 the request's store: refused=%u, ", returned);
    print_record(records);
    printf("\n");
    replay_step(&again, sheet);
}

int main(int words, char **word)
{
    if (words > 1 && strcmp(word[1], "spoil") == 0)
        steps[0].after[1] = 4;
    lend_all();
    replay_sheet();
    for (size_t i = 0; i < sizeof packets / sizeof packets[0]; i++)
        replay_packet(&packets[i]);
    for (size_t i = 0; i < sizeof steps / sizeof steps[0]; i++) {
        put_record(steps[i].before);
        replay_step(&steps[i], strcmp(steps[i].name, "P8 limit=2") == 0 ? sheet_of_two : sheet);
    }
    replay_stale();
    for (size_t i = 0; i < sizeof edges / sizeof edges[0]; i++)
        replay_edge(&edges[i]);
    return differ;
}
