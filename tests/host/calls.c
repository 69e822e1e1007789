/* Calls of the face as octets on a pipe: reads cases from standard input and writes what each call returned and left.
 *
 * All numbers are big-endian. A case is one octet, the function (1 to 10, in the order of `calls` below), then its parameters in the
 * order of coyametzi.h: a slice is its count in four octets and then its elements, numbers four octets each; `users` is 480 octets; a
 * number is four octets. Slices that the call changes stand there with what they hold before it. The answer is what the call returned in
 * four octets, then in order what each slice that the call may change holds afterwards, without counts. */
#include "coyametzi.h"
#include "lent.h"
#include "posix.h"

/* ---- Standard input and output */

static uint8_t arrived[PLACE], leaving[PLACE];
static size_t taken, has, leaves;

/* Whether there is another octet to take. */
static int more(void)
{
    long got;
    if (taken < has)
        return 1;
    got = read(0, arrived, sizeof arrived);
    if (got < 0)
        stop("calls", "the input cannot be read");
    taken = 0;
    has = (size_t)got;
    return has > 0;
}

static void take(uint8_t *to, size_t octets)
{
    while (octets > 0) {
        size_t now;
        if (!more())
            stop("calls", "the input ends inside a case");
        now = has - taken < octets ? has - taken : octets;
        memcpy(to, arrived + taken, now);
        taken += now;
        to += now;
        octets -= now;
    }
}

static void send_off(void)
{
    size_t gone = 0;
    while (gone < leaves) {
        long now = write(1, leaving + gone, leaves - gone);
        if (now <= 0)
            stop("calls", "the answers cannot be written");
        gone += (size_t)now;
    }
    leaves = 0;
}

static void give(const uint8_t *from, size_t octets)
{
    if (octets == 0)
        return;
    if (octets > sizeof leaving - leaves)
        send_off();
    memcpy(leaving + leaves, from, octets);
    leaves += octets;
}

/* Four octets, big-endian, are a number of the host, or a number of the host is those. */
static uint32_t turned(const void *four)
{
    uint8_t octets[4];
    memcpy(octets, four, 4);
    return (uint32_t)octets[0] << 24 | (uint32_t)octets[1] << 16 | (uint32_t)octets[2] << 8 | octets[3];
}

static uint32_t take_number(void)
{
    uint8_t four[4];
    take(four, 4);
    return turned(four);
}

static void give_number(uint32_t number)
{
    number = turned(&number);
    give((const uint8_t *)&number, 4);
}

/* ---- A case */

#define PARAMETERS 6

/* One parameter of the case at hand: a number, or a slice and its count. */
struct parameter {
    uint32_t number;
    size_t count;
    uint8_t *octets;
    uint32_t *numbers;
};

static struct parameter p[PARAMETERS];
static struct place places[PARAMETERS];

#define OCTETS(i) p[i].octets, p[i].count
#define NUMBERS(i) p[i].numbers, p[i].count

static uint32_t sheet(void) { return mcv_sheet(OCTETS(0), NUMBERS(1), p[2].octets, NUMBERS(3)); }
static uint32_t read_packet(void) { return mcv_read(NUMBERS(0), OCTETS(1), NUMBERS(2)); }
static uint32_t write_message(void) { return mcv_write(NUMBERS(0), NUMBERS(1), OCTETS(2), OCTETS(3), NUMBERS(4)); }
static uint32_t field(void) { return mcv_field(OCTETS(0), p[1].number, NUMBERS(2)); }
static uint32_t event(void) { return mcv_event(NUMBERS(0), p[1].octets, OCTETS(2), NUMBERS(3)); }
static uint32_t seen(void) { return mcv_seen(NUMBERS(0), OCTETS(1), p[2].number, OCTETS(3)); }
static uint32_t work_out(void) { return mcv_work_out(NUMBERS(0), OCTETS(1), NUMBERS(2), NUMBERS(3)); }
static uint32_t store(void) { return mcv_store(NUMBERS(0), NUMBERS(1), OCTETS(2), NUMBERS(3)); }
static uint32_t count(void) { return mcv_count(NUMBERS(0), OCTETS(1), p[2].number, NUMBERS(3)); }
static uint32_t packet(void) { return mcv_packet(NUMBERS(0), p[1].octets, p[2].number, NUMBERS(3), OCTETS(4), NUMBERS(5)); }

/* Each function with its parameters: n numbers, o octets, u users, a capital where the call changes them; i a number by itself. */
static const struct {
    const char *name, *parameters;
    uint32_t (*call)(void);
} calls[] = {
    { "mcv_sheet", "oNUN", sheet },
    { "mcv_read", "noN", read_packet },
    { "mcv_write", "nnoON", write_message },
    { "mcv_field", "oiN", field },
    { "mcv_event", "nuoN", event },
    { "mcv_seen", "noiO", seen },
    { "mcv_work_out", "nonN", work_out },
    { "mcv_store", "nnON", store },
    { "mcv_count", "noiN", count },
    { "mcv_packet", "nuinON", packet },
};

/* Takes parameter i from the input and lends it. */
static void take_parameter(size_t i, char sort)
{
    static uint8_t slice[PLACE];
    size_t octets;
    if (sort == 'i') {
        p[i].number = take_number();
        return;
    }
    p[i].count = sort == 'u' || sort == 'U' ? MCV_USERS : take_number();
    octets = sort == 'n' || sort == 'N' ? p[i].count * 4 : p[i].count;
    if (octets > sizeof slice)
        stop("calls", "a slice is too long");
    take(slice, octets);
    if (sort == 'n' || sort == 'N')
        for (size_t at = 0; at < octets; at += 4) {
            uint32_t number = turned(slice + at);
            memcpy(slice + at, &number, 4);
        }
    p[i].octets = lend(&places[i], slice, octets);
    p[i].numbers = (uint32_t *)(void *)p[i].octets;
}

/* Gives what parameter i holds after the call if that may change it, and else sees that it did not. */
static void give_parameter(size_t i, char sort, const char *name)
{
    if (sort == 'N')
        for (size_t k = 0; k < p[i].count; k++)
            give_number(p[i].numbers[k]);
    else if (sort == 'O' || sort == 'U')
        give(p[i].octets, p[i].count);
    else if (sort != 'i')
        unchanged(&places[i], name);
}

int main(void)
{
    for (size_t i = 0; i < PARAMETERS; i++)
        places[i] = new_place();
    while (more()) {
        uint8_t function;
        const char *sorts;
        take(&function, 1);
        if (function < 1 || function > sizeof calls / sizeof calls[0])
            stop("calls", "there is no such function");
        sorts = calls[function - 1].parameters;
        for (size_t i = 0; sorts[i] != 0; i++)
            take_parameter(i, sorts[i]);
        give_number(calls[function - 1].call());
        for (size_t i = 0; sorts[i] != 0; i++)
            give_parameter(i, sorts[i], calls[function - 1].name);
    }
    send_off();
    return 0;
}
