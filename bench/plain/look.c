/* `mcvlook` in plain C (document 01, "Bench program"): a sheet and packets in hex from standard input, a line printed for each packet.
 * The sheet is judged once, when it is read. */
#include "plain.c"

#include <unistd.h>

#define PIECE 16384
#define SHEET_TEXT 1024 /* more than the longest sheet has */
#define DIGITS 512      /* of the longest packet */
#define PRINTED 256     /* more than the longest line that is printed has */

/* ---- Standard output */

static uint8_t printed[PIECE + PRINTED];
static size_t printed_count;

/* False where a write fails. */
static bool write_printed(void)
{
    size_t gone = 0;
    while (gone < printed_count) {
        ssize_t now = write(1, printed + gone, printed_count - gone);
        if (now <= 0)
            return false;
        gone += (size_t)now;
    }
    printed_count = 0;
    return true;
}

static void print_octets(const void *octets, size_t count)
{
    memcpy(printed + printed_count, octets, count);
    printed_count += count;
}

#define PRINT(text) print_octets(text, sizeof(text) - 1)

static void print_number(uint32_t number)
{
    uint8_t digits[10];
    size_t at = sizeof digits;
    do {
        digits[--at] = (uint8_t)('0' + number % 10);
        number /= 10;
    } while (number > 0);
    print_octets(digits + at, sizeof digits - at);
}

static void print_value(uint32_t number)
{
    if (number == MCV_NONE)
        PRINT("-");
    else
        print_number(number);
}

static void print_name(const uint8_t *packet, uint32_t place, uint32_t length)
{
    if (length == 0)
        PRINT("-");
    else
        print_octets(packet + place, length);
}

static void print_message(uint32_t kind, const struct content *is, const uint8_t *packet)
{
    PRINT("kind=");
    print_number(kind);
    PRINT(" ssrc=");
    print_number(four_octets(packet + 4));
    PRINT(" ack=");
    print_number(packet[0] >> 4 & 1);
    PRINT(" user=");
    print_name(packet, is->user, is->user_length);
    PRINT(" named=");
    print_name(packet, is->named, is->named_length);
    PRINT(" result=");
    print_value(is->result);
    PRINT(" cause=");
    print_value(is->cause);
    PRINT(" indicator=");
    print_value(is->indicator);
    PRINT(" origin=");
    print_value(is->source);
    PRINT(" about=");
    print_value(is->type);
    PRINT("\n");
}

/* ---- Lines */

static uint32_t sheet[MCV_SHEET];

/* What each octet is worth as a hex digit, and one more; 0 where it is none. */
static const uint8_t worth[256] = {
    ['0'] = 1,  ['1'] = 2,  ['2'] = 3,  ['3'] = 4,  ['4'] = 5,  ['5'] = 6,  ['6'] = 7,  ['7'] = 8,  ['8'] = 9,  ['9'] = 10, ['A'] = 11,
    ['B'] = 12, ['C'] = 13, ['D'] = 14, ['E'] = 15, ['F'] = 16, ['a'] = 11, ['b'] = 12, ['c'] = 13, ['d'] = 14, ['e'] = 15, ['f'] = 16,
};

/* The octets that a line writes in hex, and how many; 0 where it is no packet. */
static size_t packet_on(const uint8_t *line, size_t length, uint8_t *packet)
{
    if (length % 2 != 0 || length > DIGITS)
        return 0;
    for (size_t i = 0; i < length; i += 2) {
        uint8_t high = worth[line[i]], low = worth[line[i + 1]];
        if (high == 0 || low == 0)
            return 0;
        packet[i / 2] = (uint8_t)((high - 1) << 4 | (low - 1));
    }
    return length / 2;
}

/* Prints the line of a line without its LF; false where a write fails. */
static bool take_line(const uint8_t *line, size_t length)
{
    uint8_t packet[MCV_PACKET];
    uint32_t kind;
    struct content is;
    uint32_t refused = read_packet(sheet, packet, packet_on(line, length, packet), &kind, &is);
    if (refused == 0) {
        print_message(kind, &is, packet);
    } else {
        PRINT("refused=");
        print_number(refused);
        PRINT("\n");
    }
    return printed_count < PIECE || write_printed();
}

/* ---- Standard input */

/* What was read and not yet taken: of a line that is too long only as much as shows it. */
static uint8_t held[SHEET_TEXT + PIECE];
static size_t held_count;

/* Reads a piece behind what is held; false at the end of the input. */
static bool read_piece(void)
{
    ssize_t got = read(0, held + held_count, PIECE);
    if (got <= 0)
        return false;
    held_count += (size_t)got;
    return true;
}

/* Takes all lines that are held from a place on, and holds the rest. */
static bool take_lines(size_t at)
{
    const uint8_t *end;
    while ((end = memchr(held + at, '\n', held_count - at)) != NULL) {
        size_t length = (size_t)(end - held) - at;
        if (!take_line(held + at, length))
            return false;
        at += length + 1;
    }
    held_count -= at;
    memmove(held, held + at, held_count);
    if (held_count > DIGITS + 1)
        held_count = DIGITS + 1;
    return true;
}

int main(void)
{
    static uint8_t users[MCV_USERS];
    uint32_t used, refused;
    while (held_count < SHEET_TEXT && read_piece())
        ;
    refused = plain_sheet(held, held_count, sheet, MCV_SHEET, users, &used, 1);
    if (refused != 0) {
        PRINT("sheet=");
        print_number(MCV_LINE(refused));
        PRINT("\n");
        write_printed();
        return 0;
    }
    bool goes_on = take_lines(used);
    while (goes_on && read_piece())
        goes_on = take_lines(0);
    if (goes_on && (held_count == 0 || take_line(held, held_count)))
        write_printed();
    return 0;
}
