/* worked.c: document 01's worked script over include/drive.h. It prints one line where every call does as the header says; else it says which
 * test failed, and fails. */
#include <stdio.h>
#include <stdlib.h>
#include <string.h>

#include "drive.h"

static const uint8_t SCRIPT[] = {
    0xE8, 0x07, 0x02, 0x01,                                                       /* 1,000 blocks, 2 bands, 1 sensor */
    0x04, 0x00, 0x1B, 0x01, 0x05, 0x03, 0x05,                                     /* sensor Set */
    0x05, 0x01, 0x21, 0x01, 0x0E,                                                 /* band Set, and its expression: */
    0xF0, 0xF2, 0xA4, 0x00, 0x00, 0x0C, 0x0E, 0xA4, 0x00, 0x00, 0x00, 0x00, 0xF3, 0xF1,
    0x06, 0x01, 0x64, 0x32,                                                       /* geometry */
    0x01, 0x00, 0x88, 0x27,                                                       /* reading */
    0x02, 0x05,                                                                   /* elapse */
    0x07, 0x00, 0x63, 0x02,                                                       /* a read and a write */
    0x07, 0x01, 0x63, 0x02,
    0x05, 0x01, 0x04, 0x00,                                                       /* an unlock, which is held */
    0x08                                                                          /* no event: it makes the script bad */
};

/* The script without its last byte, where its expression stands, and where its elapse does. */
enum { WHOLE = sizeof SCRIPT - 1, TOKENS_AT = 16, TOKENS = 14, ELAPSE_AT = 38 };

static const char LISTING[] =
    "e 0 0 0\ne 1 0 0\ne 2 0 0\ne 3 0 0\ne 4 0 1\ne 5 9 0\ne 6 0 0\ne 7 8 0\nb 0 0 0 0\nb 1 1 0 1\ns 0 1 2 1 0\n";

static const uint8_t ANSWERS[] = {0, 0, 0, 0, 0, 9, 0, 8};
static const uint8_t STOPS[] = {0, 0, 0, 0, 1, 0, 0, 0};

/* What numbers and bytes hold before a call. */
enum { BEFORE = 0x5A5A, BYTE = 0xA5 };

static int tests;

static void expect(int holds, const char *what)
{
    tests++;
    if (!holds) {
        fprintf(stderr, "worked: %s\n", what);
        exit(1);
    }
}

/* Whether bytes are as they were before a call. */
static int kept(const uint8_t *bytes, size_t n)
{
    for (size_t i = 0; i < n; i++) {
        if (bytes[i] != BYTE) {
            return 0;
        }
    }
    return 1;
}

/* The operator AND and nothing else. */
static const uint8_t AND_ALONE[] = {0xf0, 0xf2, 0xa4, 0x00, 0x00, 0x04, 0x0e, 0x00, 0xf3, 0xf1};

/* The script's events in the flat form. Its tokens are the expression's, in the script itself. */
static const uint64_t FIELDS[] = {
    DRIVE_SENSOR_SET, 0, 1 + 2 + 8 + 16, 1, 5, 0, 3, 5, 0, 0,
    DRIVE_BAND_SET, 1, 1 + 32, 1, 0, 0, 0, 0, TOKENS,
    DRIVE_GEOMETRY, 1, 100, 50,
    DRIVE_READING, 0, 5000,
    DRIVE_ELAPSE, 5,
    DRIVE_TRANSFER, 0, 99, 2,
    DRIVE_TRANSFER, 1, 99, 2,
    DRIVE_BAND_SET, 1, 4, 0, 0, 0, 0, 0, 0
};

enum { FIELD_COUNT = sizeof FIELDS / sizeof FIELDS[0] };

static void listing(void)
{
    uint8_t out[256];
    size_t length = BEFORE, size = sizeof LISTING - 1;
    memset(out, BYTE, sizeof out);
    expect(drive_list(SCRIPT, WHOLE, out, size - 1, &length) == DRIVE_SHORT_BUFFER, "a short output gets 11");
    expect(length == BEFORE && kept(out, sizeof out), "11 leaves the output and the length of a listing");
    expect(drive_list(SCRIPT, WHOLE, out, sizeof out, &length) == DRIVE_DONE, "the script is listed");
    expect(length == size && memcmp(out, LISTING, size) == 0, "the listing is document 01's");
    expect(kept(out + size, sizeof out - size), "the rest of the output is as it was");
    expect(drive_list(SCRIPT, WHOLE + 1, out, sizeof out, &length) == DRIVE_DONE, "a bad script has a listing");
    expect(length == 5 && memcmp(out, "f 52\n", 5) == 0, "which is its place");
}

static void run(void)
{
    uint8_t answers[16], stops[16];
    size_t place = BEFORE, count = BEFORE;
    memset(answers, BYTE, sizeof answers);
    memset(stops, BYTE, sizeof stops);
    expect(drive_run(SCRIPT, WHOLE, UINT64_MAX, answers, 8, stops, 7, &place, &count) == DRIVE_SHORT_BUFFER, "seven bytes of stops get 11");
    expect(place == BEFORE && count == BEFORE, "11 writes no number of a run");
    expect(drive_run(SCRIPT, WHOLE + 1, UINT64_MAX, answers, 16, stops, 16, &place, &count) == DRIVE_BAD_SCRIPT, "a bad script gets 10");
    expect(place == WHOLE && count == BEFORE, "10 writes the place alone");
    expect(kept(answers, 16) && kept(stops, 16), "a refused run leaves both buffers");
    place = BEFORE;
    expect(drive_run(SCRIPT, WHOLE, UINT64_MAX, answers, 16, stops, 16, &place, &count) == DRIVE_DONE, "the script runs");
    expect(place == BEFORE && count == 8, "done writes the number of events alone");
    expect(memcmp(answers, ANSWERS, 8) == 0 && memcmp(stops, STOPS, 8) == 0, "answers and stops are document 01's");
    expect(kept(answers + 8, 8) && kept(stops + 8, 8), "the rest of both buffers is as it was");
}

static void events(void)
{
    const uint64_t unlock[] = {1, 4, 0, 0, 0, 0, 0}, five[] = {5}, no_type[] = {DRIVE_PROGRAMMATIC + 1}, no_sensor[] = {16, 0};
    const uint64_t expression[] = {1, 32}, no_band[] = {16, 32};
    const uint8_t none[] = {0}, empty[] = {0xf0, 0xf1};
    uint64_t stops = BEFORE;
    size_t place = BEFORE;
    expect(drive_event(SCRIPT, WHOLE, DRIVE_BAND_SET, unlock, 7, none, 0, &stops, &place) == DRIVE_HELD, "the unlock is held");
    expect(stops == BEFORE && place == BEFORE, "8 writes nothing");
    expect(drive_event(SCRIPT, WHOLE + 1, DRIVE_READING, no_sensor, 2, none, 0, &stops, &place) == DRIVE_NO_ROW, "1 before 10");
    expect(drive_event(SCRIPT, WHOLE + 1, DRIVE_RESET, no_type, 1, none, 0, &stops, &place) == DRIVE_OUT_OF_RANGE, "2 before 10");
    expect(drive_event(SCRIPT, WHOLE + 1, 8, five, 1, none, 0, &stops, &place) == DRIVE_OUT_OF_RANGE, "there is no kind 8");
    expect(drive_event(SCRIPT, WHOLE, DRIVE_BAND_SET, expression, 2, AND_ALONE, 10, &stops, &place) == DRIVE_MALFORMED, "AND alone gets 13");
    expect(drive_event(SCRIPT, WHOLE, DRIVE_BAND_SET, no_band, 2, AND_ALONE, 10, &stops, &place) == DRIVE_NO_ROW, "1 before 13");
    expect(drive_event(SCRIPT, WHOLE, DRIVE_BAND_SET, expression, 2, AND_ALONE, 9, &stops, &place) == DRIVE_NOT_TOKENS, "cut, it gets 3");
    expect(drive_event(SCRIPT, WHOLE, DRIVE_BAND_SET, unlock, 7, AND_ALONE, 10, &stops, &place) == DRIVE_HELD, "and 8 where the Set does not name it");
    expect(drive_event(SCRIPT, WHOLE + 1, DRIVE_BAND_SET, expression, 2, AND_ALONE, 10, &stops, &place) == DRIVE_MALFORMED, "13 before 10");
    expect(stops == BEFORE && place == BEFORE, "1, 2, 3, 8 and 13 write nothing, on a bad script too");
    expect(drive_event(SCRIPT, WHOLE, DRIVE_BAND_SET, expression, 2, empty, 2, &stops, &place) == DRIVE_DONE, "the empty expression is stored");
    expect(stops == 0 && place == BEFORE, "and a Set has no stops");
    stops = BEFORE;
    expect(drive_event(SCRIPT, WHOLE + 1, DRIVE_ELAPSE, five, 1, none, 0, &stops, &place) == DRIVE_BAD_SCRIPT, "10 on a bad script");
    expect(stops == BEFORE && place == WHOLE, "10 writes the place alone");
    place = BEFORE;
    expect(drive_event(SCRIPT, ELAPSE_AT, DRIVE_ELAPSE, five, 1, none, 0, &stops, &place) == DRIVE_DONE, "the elapse is done");
    expect(stops == 1 && place == BEFORE, "and has one stop");
}

/* A reset of each type, the one type more that there is not, and LockOnReset with the bits of all types. */
static void resets(void)
{
    const uint64_t all = DRIVE_LOCK_ON(DRIVE_POWER_CYCLE) + DRIVE_LOCK_ON(DRIVE_HARDWARE) + DRIVE_LOCK_ON(DRIVE_HOT_PLUG)
        + DRIVE_LOCK_ON(DRIVE_PROGRAMMATIC);
    uint64_t set[] = {1, 16, 0, 0, 0, 0, 0}, type, stops = BEFORE;
    const uint8_t none[] = {0};
    size_t place = BEFORE;
    for (type = DRIVE_POWER_CYCLE; type <= DRIVE_PROGRAMMATIC; type++) {
        stops = BEFORE;
        expect(drive_event(SCRIPT, WHOLE, DRIVE_RESET, &type, 1, none, 0, &stops, &place) == DRIVE_DONE, "a reset of each type is done");
        expect(stops == 0 && place == BEFORE, "and has no stops");
        set[6] = DRIVE_LOCK_ON(type);
        expect(drive_event(SCRIPT, WHOLE, DRIVE_BAND_SET, set, 7, none, 0, &stops, &place) == DRIVE_DONE, "LockOnReset takes the bit of each type");
    }
    stops = BEFORE;
    expect(drive_event(SCRIPT, WHOLE, DRIVE_RESET, &type, 1, none, 0, &stops, &place) == DRIVE_OUT_OF_RANGE, "there is no type 4");
    set[6] = all + 1;
    expect(drive_event(SCRIPT, WHOLE, DRIVE_BAND_SET, set, 7, none, 0, &stops, &place) == DRIVE_OUT_OF_RANGE, "LockOnReset takes no 16");
    expect(drive_event(SCRIPT, WHOLE + 1, DRIVE_BAND_SET, set, 7, none, 0, &stops, &place) == DRIVE_OUT_OF_RANGE, "on a bad script neither");
    expect(stops == BEFORE && place == BEFORE, "2 writes nothing");
    set[6] = all;
    expect(drive_event(SCRIPT, WHOLE, DRIVE_BAND_SET, set, 7, none, 0, &stops, &place) == DRIVE_DONE, "LockOnReset takes all of them");
    type = DRIVE_PROGRAMMATIC;
    expect(drive_event(SCRIPT, WHOLE + 1, DRIVE_RESET, &type, 1, none, 0, &stops, &place) == DRIVE_BAD_SCRIPT, "a reset on a bad script gets 10");
    expect(place == WHOLE, "with the place");
}

static void fresh(void)
{
    uint64_t blocks = BEFORE;
    size_t bands = BEFORE, sensors = BEFORE;
    expect(drive_fresh(1000, 2, 1, &blocks, &bands, &sensors) == DRIVE_DONE, "the script's header is in range");
    expect(blocks == 1000 && bands == 2 && sensors == 1, "and its fresh drive is that of the header");
    expect(drive_fresh(1000, 17, 1, &blocks, &bands, &sensors) == DRIVE_OUT_OF_RANGE, "17 bands get 2");
    expect(blocks == 1 && bands == 1 && sensors == 0, "and the drive of capacity 1, one band and no sensors");
}

static void tokens(void)
{
    const uint64_t no_operator[] = {DRIVE_NOT + 1};
    uint64_t codes[DRIVE_MOST_ELEMENTS] = {BEFORE};
    uint8_t out[TOKENS + 1];
    size_t count = BEFORE;
    memset(out, BYTE, sizeof out);
    expect(tokens_read(SCRIPT + TOKENS_AT, TOKENS - 1, codes, 32, &count) == DRIVE_NOT_TOKENS, "cut tokens get 3");
    expect(tokens_read(SCRIPT + TOKENS_AT, TOKENS, codes, 0, &count) == DRIVE_SHORT_BUFFER, "no room for an element gets 11");
    expect(count == BEFORE && codes[0] == BEFORE, "tokens that are refused write nothing");
    expect(tokens_read(AND_ALONE, 10, codes, 32, &count) == DRIVE_DONE, "AND alone is read, malformed as it is");
    expect(count == 1 && codes[0] == DRIVE_AND, "it is one operator");
    expect(tokens_read(SCRIPT + TOKENS_AT, TOKENS, codes, 32, &count) == DRIVE_DONE, "the script's expression is read");
    expect(count == 1 && codes[0] == 0, "it is a reference to row 0");
    count = BEFORE;
    expect(tokens_write(no_operator, 1, out, sizeof out, &count) == DRIVE_OUT_OF_RANGE, "there is no operator 3");
    expect(tokens_write(codes, 1, out, TOKENS - 1, &count) == DRIVE_SHORT_BUFFER, "13 bytes are too few");
    expect(count == BEFORE && kept(out, sizeof out), "elements that are refused write nothing");
    expect(tokens_write(codes, 1, out, sizeof out, &count) == DRIVE_DONE, "the expression is written");
    expect(count == TOKENS && memcmp(out, SCRIPT + TOKENS_AT, TOKENS) == 0, "as the script has it");
    expect(kept(out + TOKENS, 1), "and no byte more");
}

/* The header of a discovery answer and its two features: the Locking feature with these flags, and the Locking LBA Ranges Control feature. */
static int is_answer(const uint8_t *bytes, uint8_t flags)
{
    uint8_t answer[DRIVE_DISCOVERY_BYTES] = {0, 0, 0, 76, 0, 0, 0, 1};
    const uint8_t locking[] = {0x00, 0x02, 0x10, 12, flags}, ranges[] = {0x04, 0x01, 0x10, 12};
    memcpy(answer + 48, locking, sizeof locking);
    memcpy(answer + 64, ranges, sizeof ranges);
    return memcmp(bytes, answer, sizeof answer) == 0;
}

static void discovery(void)
{
    const uint8_t open_flags = DRIVE_FLAG_LOCKING_SUPPORTED | DRIVE_FLAG_MEDIA_ENCRYPTION, locked_flags = open_flags | DRIVE_FLAG_LOCKED;
    uint8_t out[DRIVE_DISCOVERY_BYTES + 16], locking = BYTE, ranges = BYTE, flags = BYTE;
    size_t length = BEFORE;
    memset(out, BYTE, sizeof out);
    expect(discovery_write(SCRIPT, WHOLE, out, DRIVE_DISCOVERY_BYTES - 1, &length) == DRIVE_SHORT_BUFFER, "79 bytes are too few for an answer");
    expect(length == BEFORE && kept(out, sizeof out), "11 leaves the output and the length of an answer");
    expect(discovery_write(SCRIPT, WHOLE + 1, out, sizeof out, &length) == DRIVE_BAD_SCRIPT, "a bad script has no answer");
    expect(length == WHOLE && kept(out, sizeof out), "10 writes its place alone");
    length = BEFORE;
    expect(discovery_write(SCRIPT, WHOLE + 1, out, 0, &length) == DRIVE_BAD_SCRIPT && length == WHOLE, "10 before 11");
    expect(discovery_write(SCRIPT, ELAPSE_AT, out, sizeof out, &length) == DRIVE_DONE, "the answer before the elapse is written");
    expect(length == DRIVE_DISCOVERY_BYTES && is_answer(out, open_flags), "and no band is locked");
    expect(discovery_write(SCRIPT, WHOLE, out, sizeof out, &length) == DRIVE_DONE, "the answer after the script is written");
    expect(length == DRIVE_DISCOVERY_BYTES && is_answer(out, locked_flags), "and band 1 is locked");
    expect(kept(out + DRIVE_DISCOVERY_BYTES, 16), "and no byte more than the answer");
    expect(discovery_read(out, DRIVE_DISCOVERY_BYTES - 1, &locking, &ranges, &flags) == DRIVE_SHORT_ANSWER, "79 bytes are a short answer");
    expect(discovery_read(out, 0, &locking, &ranges, &flags) == DRIVE_SHORT_ANSWER, "and so is none");
    expect(locking == BYTE && ranges == BYTE && flags == BYTE, "12 writes nothing");
    expect(discovery_read(out, sizeof out, &locking, &ranges, &flags) == DRIVE_DONE, "the answer is read, and the bytes behind it are not");
    expect(locking == 1 && ranges == 1 && flags == locked_flags, "both features are there, and the flags are those that were written");
    out[48 + 2] = 0x20;
    expect(discovery_read(out, sizeof out, &locking, &ranges, &flags) == DRIVE_DONE, "an answer of another version is read");
    expect(locking == 0 && ranges == 1 && flags == 0, "and its Locking feature is passed over");
}

/* A call of script_write that is refused with 2, and with 2 before 11 too, and leaves its output and its length. */
static void unwritten(uint64_t capacity, uint64_t bands, uint64_t sensors, const uint64_t *fields, size_t count, const uint8_t *bytes, size_t size,
                      const char *what)
{
    static uint8_t out[DRIVE_MOST_SCRIPT + 8];
    size_t length = BEFORE;
    memset(out, BYTE, sizeof out);
    expect(script_write(capacity, bands, sensors, fields, count, bytes, size, out, sizeof out, &length) == DRIVE_OUT_OF_RANGE, what);
    expect(script_write(capacity, bands, sensors, fields, count, bytes, size, out, 0, &length) == DRIVE_OUT_OF_RANGE, what);
    expect(length == BEFORE && kept(out, sizeof out), "what no script holds writes nothing");
}

static void unwritten_scripts(void)
{
    const uint64_t kind[] = {8, 0, 0}, sensor_mask[] = {DRIVE_SENSOR_SET, 0, 128, 0, 0, 0, 0, 0, 0, 0};
    const uint64_t band_mask[] = {DRIVE_BAND_SET, 0, 64, 0, 0, 0, 0, 0, 0};
    const uint64_t sensor_value[] = {DRIVE_SENSOR_SET, 0, 1, 1, 0, 0, 0, 0, 0, 7};
    const uint64_t band_value[] = {DRIVE_BAND_SET, 0, 1, 1, 1, 0, 0, 0, 0};
    const uint64_t no_expression[] = {DRIVE_BAND_SET, 0, 31, 0, 0, 0, 0, 0, 1};
    const uint64_t long_expression[] = {DRIVE_BAND_SET, 0, 32, 0, 0, 0, 0, 0, 1025};
    const uint8_t *tokens = SCRIPT + TOKENS_AT;
    static uint64_t elapses[2 * 32766];
    static uint8_t bytes[1025], out[DRIVE_MOST_SCRIPT];
    size_t length, i;
    unwritten(0, 2, 1, FIELDS, FIELD_COUNT, tokens, TOKENS, "no block gets 2");
    unwritten((UINT64_C(1) << 48) + 1, 2, 1, FIELDS, FIELD_COUNT, tokens, TOKENS, "a block above 2^48 gets 2");
    unwritten(1000, 0, 1, FIELDS, FIELD_COUNT, tokens, TOKENS, "no band gets 2");
    unwritten(1000, 17, 1, FIELDS, FIELD_COUNT, tokens, TOKENS, "17 bands of a script get 2");
    unwritten(1000, 2, 17, FIELDS, FIELD_COUNT, tokens, TOKENS, "17 sensors of a script get 2");
    unwritten(1000, 2, 1, kind, 3, tokens, 0, "no script holds an event of kind 8");
    unwritten(1000, 2, 1, FIELDS, FIELD_COUNT - 1, tokens, TOKENS, "an event without its last number gets 2");
    unwritten(1000, 2, 1, FIELDS, FIELD_COUNT, tokens, TOKENS - 1, "a token byte too few gets 2");
    unwritten(1000, 2, 1, FIELDS, FIELD_COUNT, tokens, TOKENS + 1, "a token byte too many gets 2");
    unwritten(1000, 2, 1, sensor_mask, 10, tokens, 0, "no sensor has a column of bit 128");
    unwritten(1000, 2, 1, band_mask, 9, tokens, 0, "no band has a column of bit 64");
    unwritten(1000, 2, 1, sensor_value, 10, tokens, 0, "an off-timeout that is not named gets 2");
    unwritten(1000, 2, 1, band_value, 9, tokens, 0, "a WriteLockEnabled that is not named gets 2");
    unwritten(1000, 2, 1, no_expression, 9, tokens, 1, "an expression that is not named gets 2");
    unwritten(1000, 2, 1, long_expression, 9, bytes, 1025, "1,025 token bytes get 2");
    for (i = 0; i < 32766; i++) {
        elapses[2 * i] = DRIVE_ELAPSE;
    }
    expect(script_write(1000, 2, 1, elapses, 2 * 32766, tokens, 0, out, sizeof out, &length) == DRIVE_DONE, "32,766 elapses are written");
    expect(length == DRIVE_MOST_SCRIPT, "and their script is of the greatest length");
    elapses[1] = 128;
    unwritten(1000, 2, 1, elapses, 2 * 32766, tokens, 0, "a script of 65,537 bytes gets 2");
}

static void written_script(void)
{
    const uint64_t refused[] = {DRIVE_RESET, 9, DRIVE_BAND_SET, 99, 1 + 32, 2, 0, 0, 0, 0, 1};
    const uint8_t refused_bytes[] = {0xE8, 0x07, 0x02, 0x01, 0x03, 0x09, 0x05, 0x63, 0x21, 0x02, 0x01, 0xF0};
    const uint8_t *tokens = SCRIPT + TOKENS_AT;
    uint8_t out[WHOLE + 8];
    size_t length = BEFORE;
    memset(out, BYTE, sizeof out);
    expect(script_write(1000, 2, 1, FIELDS, FIELD_COUNT, tokens, TOKENS, out, WHOLE - 1, &length) == DRIVE_SHORT_BUFFER, "51 bytes are too few");
    expect(length == BEFORE && kept(out, sizeof out), "11 leaves the output and the length of a script");
    expect(script_write(1000, 2, 1, FIELDS, FIELD_COUNT, tokens, TOKENS, out, sizeof out, &length) == DRIVE_DONE, "the script is written");
    expect(length == WHOLE && memcmp(out, SCRIPT, WHOLE) == 0, "byte by byte as document 01 has it");
    expect(kept(out + WHOLE, sizeof out - WHOLE), "and no byte more than the script");
    expect(script_write(1000, 2, 1, refused, 11, tokens, 1, out, sizeof out, &length) == DRIVE_DONE, "what the drive refuses is written");
    expect(length == sizeof refused_bytes && memcmp(out, refused_bytes, sizeof refused_bytes) == 0, "as it was given");
}

/* The numbers that script_read writes. */
struct apart {
    size_t place, field_count, token_count;
    uint64_t capacity, bands, sensors;
};

static const struct apart UNREAD = {BEFORE, BEFORE, BEFORE, BEFORE, BEFORE, BEFORE};

static uint8_t taken_apart(size_t size, uint64_t *fields, size_t fields_len, uint8_t *tokens, size_t tokens_len, struct apart *all)
{
    *all = UNREAD;
    return script_read(SCRIPT, size, fields, fields_len, tokens, tokens_len, &all->place, &all->capacity, &all->bands, &all->sensors,
                       &all->field_count, &all->token_count);
}

/* Whether all numbers but the place are as they were before a call. */
static int unread(const struct apart *all)
{
    return all->field_count == BEFORE && all->token_count == BEFORE && all->capacity == BEFORE && all->bands == BEFORE && all->sensors == BEFORE;
}

static void read_script(void)
{
    static uint64_t most_fields[DRIVE_ENOUGH_FIELDS];
    static uint8_t most_tokens[DRIVE_ENOUGH_TOKENS];
    uint64_t fields[FIELD_COUNT + 1];
    uint8_t tokens[TOKENS + 1];
    struct apart all;
    size_t i;
    for (i = 0; i <= FIELD_COUNT; i++) {
        fields[i] = BEFORE;
    }
    memset(tokens, BYTE, sizeof tokens);
    expect(taken_apart(WHOLE, fields, FIELD_COUNT - 1, tokens, TOKENS, &all) == DRIVE_SHORT_BUFFER, "44 numbers are too few");
    expect(all.place == BEFORE && unread(&all), "11 writes no number");
    expect(taken_apart(WHOLE, fields, FIELD_COUNT, tokens, TOKENS - 1, &all) == DRIVE_SHORT_BUFFER, "13 token bytes are too few");
    expect(all.place == BEFORE && unread(&all), "nor then");
    expect(taken_apart(WHOLE + 1, fields, FIELD_COUNT, tokens, TOKENS, &all) == DRIVE_BAD_SCRIPT, "a bad script is not read");
    expect(all.place == WHOLE && unread(&all), "10 writes its place alone");
    expect(taken_apart(WHOLE + 1, fields, 0, tokens, 0, &all) == DRIVE_BAD_SCRIPT, "10 before 11 for a script that is read");
    for (i = 0; i <= FIELD_COUNT && fields[i] == BEFORE; i++) {
    }
    expect(i > FIELD_COUNT && kept(tokens, sizeof tokens), "10 and 11 write no field and no token byte");
    expect(taken_apart(WHOLE, fields, FIELD_COUNT + 1, tokens, TOKENS + 1, &all) == DRIVE_DONE, "the script is read");
    expect(all.place == BEFORE && all.capacity == 1000 && all.bands == 2 && all.sensors == 1, "its header, and no place");
    expect(all.field_count == FIELD_COUNT && memcmp(fields, FIELDS, sizeof FIELDS) == 0, "its events");
    expect(all.token_count == TOKENS && memcmp(tokens, SCRIPT + TOKENS_AT, TOKENS) == 0, "and its expression");
    expect(fields[FIELD_COUNT] == BEFORE && kept(tokens + TOKENS, 1), "and no number and no byte more");
    expect(taken_apart(WHOLE, most_fields, DRIVE_ENOUGH_FIELDS, most_tokens, DRIVE_ENOUGH_TOKENS, &all) == DRIVE_DONE, "there is room for the most");
    expect(all.field_count == FIELD_COUNT && all.token_count == TOKENS, "of which it takes what it needs");
}

int main(void)
{
    listing();
    run();
    events();
    resets();
    fresh();
    tokens();
    discovery();
    unwritten_scripts();
    written_script();
    read_script();
    printf("worked.c: %d tests of document 01's worked script over include/drive.h\n", tests);
    return 0;
}
