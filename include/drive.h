/*
 * drive.h: the functions of the reference drive that programs in other languages link.
 *
 * They are the exported functions of crates/api, and each is proved to do what its comment says, on every value of its parameters: the
 * definitions are in crates/api/specs/Exports.antt. Build the library with `rt lib` in crates/api, and link crates/api/out/libapi.a and the C
 * library. "Document 01" is the scope paper, as the requests that have landed amend it (README.md, 'Requests').
 *
 * What a call asks of its caller: a buffer is a pointer and the number of its elements; no pointer is NULL, also where that number is 0; and
 * no memory that a call writes overlaps other memory that it is given. The functions keep nothing between two calls, and take their memory
 * from the stack, less than a megabyte of it (this is measured and not proved).
 *
 * Every function returns an answer of document 01's table, or one that a request adds to it. Where several apply, the lowest number is given,
 * but of 3 and 4 the one that is met first from the left, and 13 right after these. A refusal, that is any answer but 0, leaves every buffer and
 * every number behind a pointer as it was, with two exceptions, which document 01 makes: answer 10 writes the place (to `*place`, or to
 * `*length` where discovery_write gives it) and nothing else, and drive_fresh writes the drive that it hands back. Answer 0 writes what the
 * function's comment says, of each buffer so many elements from its start and none behind them, and never a place.
 */
#ifndef DRIVE_H
#define DRIVE_H

#include <stddef.h>
#include <stdint.h>

#ifdef __cplusplus
extern "C" {
#endif

/* Document 01's answers, and after them those of the requests. */
enum drive_answer {
    DRIVE_DONE = 0,          /* nothing below applies */
    DRIVE_NO_ROW = 1,        /* the band or sensor is not below its count */
    DRIVE_OUT_OF_RANGE = 2,  /* a field exceeds its range */
    DRIVE_NOT_TOKENS = 3,    /* the expression's bytes break the token form */
    DRIVE_TOO_LONG = 4,      /* the expression has more than 32 elements */
    DRIVE_GLOBAL = 5,        /* a geometry for band 0 */
    DRIVE_PAST_END = 6,      /* a geometry or transfer goes past the capacity */
    DRIVE_OVERLAP = 7,       /* two bands that are not empty would share a block */
    DRIVE_HELD = 8,          /* an unlock under a TRUE expression */
    DRIVE_LOCKED = 9,        /* a transfer touches a locked block */
    DRIVE_BAD_SCRIPT = 10,   /* the script cannot be read */
    DRIVE_SHORT_BUFFER = 11, /* an output is shorter than needed */
    DRIVE_SHORT_ANSWER = 12, /* a discovery answer ends in its header or in a descriptor, or past its bytes */
    DRIVE_MALFORMED = 13     /* a Set's expression is not empty, and an operator runs short or not exactly one value is left */
};

/* The kinds of events, for drive_event and the flat form. */
enum drive_kind {
    DRIVE_READING = 1,
    DRIVE_ELAPSE = 2,
    DRIVE_RESET = 3,
    DRIVE_SENSOR_SET = 4,
    DRIVE_BAND_SET = 5,
    DRIVE_GEOMETRY = 6,
    DRIVE_TRANSFER = 7
};

/* The types of resets, for DRIVE_RESET. */
enum drive_reset {
    DRIVE_POWER_CYCLE = 0,
    DRIVE_HARDWARE = 1,
    DRIVE_HOT_PLUG = 2,
    DRIVE_PROGRAMMATIC = 3
};

/* A type's bit in a LockOnReset column: 1, 2, 4 or 8. A set of types is their sum, 0 to 15. */
#define DRIVE_LOCK_ON(type) (UINT64_C(1) << (type))

/* The flags of the Locking feature, for discovery_read (003, 10.2.14, table 23). */
enum drive_flag {
    DRIVE_FLAG_LOCKING_SUPPORTED = 1,
    DRIVE_FLAG_LOCKING_ENABLED = 2,
    DRIVE_FLAG_LOCKED = 4,
    DRIVE_FLAG_MEDIA_ENCRYPTION = 8,
    DRIVE_FLAG_MBR_ENABLED = 16,
    DRIVE_FLAG_MBR_DONE = 32
};

/* An output of so many bytes is never too short for a listing. */
#define DRIVE_MOST_LISTED 426486

/* No script has more events: two buffers of so many bytes are never too short for a run. */
#define DRIVE_MOST_EVENTS 32766

/* No expression has more elements: an output of so many numbers is never too short for the elements that bytes are read to. */
#define DRIVE_MOST_ELEMENTS 32

/* No script has more bytes: an output of so many bytes is never too short for a script that is written. */
#define DRIVE_MOST_SCRIPT 65536

/* Outputs of so many numbers and of so many bytes are never too short for the flat form that a script is read to. */
#define DRIVE_ENOUGH_FIELDS 218443
#define DRIVE_ENOUGH_TOKENS 65533

/* Every discovery answer that is written has so many bytes. */
#define DRIVE_DISCOVERY_BYTES 80

/* An element of an expression as a number: below DRIVE_AND it is a reference to that row, and from DRIVE_AND on an operator. */
#define DRIVE_AND (UINT64_C(1) << 32)
#define DRIVE_OR (DRIVE_AND + 1)
#define DRIVE_NOT (DRIVE_AND + 2)

/*
 * drive_list lists a script: it writes the lines of document 01's listing from the start of `out`, which has room for `out_len` bytes, and
 * their number of bytes to `*length`. No zero byte follows them.
 *
 * It answers DRIVE_DONE, also for a bad script, whose listing is the line with its place; or DRIVE_SHORT_BUFFER where the listing does not
 * fit, and then it writes nothing.
 */
uint8_t drive_list(const uint8_t *script, size_t script_len, uint8_t *out, size_t out_len, size_t *length);

/*
 * drive_run runs the first `most` events of a script, or all where there are no more, from the fresh drive of its header. It writes the
 * answer of each event, one byte, from the start of `answers`, the stops of each likewise from the start of `stops`, and the number of events
 * run to `*count`.
 *
 * It answers DRIVE_DONE whatever the events were answered, and leaves `*place`; DRIVE_BAD_SCRIPT where any part of the script is bad, and
 * then it runs no event and writes to `*place` alone: the place, that is the byte from 0 at which the first failing event starts, 0 for the
 * header or a script above 65,536 bytes; or DRIVE_SHORT_BUFFER where one of the two buffers has fewer bytes than there are events to run, and
 * then it writes nothing.
 */
uint8_t drive_run(const uint8_t *script, size_t script_len, uint64_t most, uint8_t *answers, size_t answers_len, uint8_t *stops,
                  size_t stops_len, size_t *place, size_t *count);

/*
 * drive_event gives one event to the drive that a script leaves after its last event, and writes the event's stops to `*stops`. They are 0
 * for every kind but an elapse.
 *
 * The fields of each kind: a reading has a sensor and a value in thousandths; an elapse its ticks; a reset its type (enum drive_reset); a sensor
 * Set the sensor, the mask, and enabled, on-threshold, on-fraction, on-timeout, off-threshold, off-fraction and off-timeout; a band Set the
 * band, the mask, and ReadLockEnabled, WriteLockEnabled, ReadLocked, WriteLocked and LockOnReset (DRIVE_LOCK_ON); a geometry a band, a start
 * and a length; a transfer 0 for a read or 1 for a write, a start and a count. A Set has a number for each of its columns, and those that its
 * mask does not name are not looked at; nor are the bytes of `tokens`, save how many they are, where a Set does not name the expression. A field
 * past the end of `fields` is 0.
 *
 * It answers DRIVE_DONE, and leaves `*place`. It answers 1 to 9 or DRIVE_MALFORMED for an event that is refused, 2 also for a kind that there is
 * not, and then it writes nothing. On a bad script it answers 1 to 6 or DRIVE_MALFORMED where the event gets that number on the fresh drive of the
 * greatest header (2^48 blocks, 16 bands, 16 sensors), 2 for a kind that there is not, and writes nothing; every other event gets
 * DRIVE_BAD_SCRIPT, which writes the script's place to `*place` and leaves `*stops`.
 */
uint8_t drive_event(const uint8_t *script, size_t script_len, uint64_t kind, const uint64_t *fields, size_t fields_len,
                    const uint8_t *tokens, size_t tokens_len, uint64_t *stops, size_t *place);

/*
 * drive_fresh makes the fresh drive of a header, and writes its capacity in blocks, its number of bands and its number of sensors to
 * `*blocks`, `*band_count` and `*sensor_count`.
 *
 * It answers DRIVE_DONE; or DRIVE_OUT_OF_RANGE where the capacity is not 1 to 2^48, the bands are not 1 to 16 or the sensors more than 16, and
 * then the drive is that of capacity 1, one band and no sensors, and so are the three numbers.
 */
uint8_t drive_fresh(uint64_t capacity, uint64_t bands, uint64_t sensors, uint64_t *blocks, size_t *band_count, size_t *sensor_count);

/*
 * tokens_read reads an expression in its token form, and writes its elements as numbers (see DRIVE_AND) from the start of `out`, which has
 * room for `out_len` numbers, and how many there are to `*count`.
 *
 * It answers DRIVE_DONE; DRIVE_OUT_OF_RANGE where there are more than 1,024 bytes; DRIVE_NOT_TOKENS where they break the token form;
 * DRIVE_TOO_LONG where an element begins after 32 elements; or DRIVE_SHORT_BUFFER where `out` has room for fewer numbers than there are
 * elements. With all but the first it writes nothing.
 */
uint8_t tokens_read(const uint8_t *bytes, size_t bytes_len, uint64_t *out, size_t out_len, size_t *count);

/*
 * tokens_write writes the token form of an expression, whose elements are numbers (see DRIVE_AND), from the start of `out`, which has room for
 * `out_len` bytes, and its number of bytes to `*count`. What it writes is read by tokens_read as the same elements.
 *
 * It answers DRIVE_DONE; DRIVE_OUT_OF_RANGE where a number exceeds DRIVE_NOT; DRIVE_TOO_LONG where there are more than 32 elements; or
 * DRIVE_SHORT_BUFFER where the bytes do not fit. With all but the first it writes nothing.
 */
uint8_t tokens_write(const uint64_t *codes, size_t codes_len, uint8_t *out, size_t out_len, size_t *count);

/*
 * discovery_write writes the Level 0 discovery answer (003, 10.2.14) of the drive that a script leaves after its last event from the start of
 * `out`, which has room for `out_len` bytes, and its number of bytes, DRIVE_DISCOVERY_BYTES, to `*length`. The answer has the Locking feature
 * and the Locking LBA Ranges Control feature. Of the flags, LockingSupported and MediaEncryption are 1, Locked is 1 where some band has a side
 * that is enabled and locked, and the others are 0.
 *
 * It answers DRIVE_DONE; DRIVE_BAD_SCRIPT where any part of the script is bad, and then it writes the script's place to `*length`, and nothing
 * else; or DRIVE_SHORT_BUFFER where `out` has room for fewer bytes, and then it writes nothing.
 */
uint8_t discovery_write(const uint8_t *script, size_t script_len, uint8_t *out, size_t out_len, size_t *length);

/*
 * discovery_read reads a Level 0 discovery answer, of this drive or another, and writes to `*locking` whether the Locking feature is there, to
 * `*ranges` whether the Locking LBA Ranges Control feature is there, 0 or 1 each, and to `*flags` the six flags of the Locking feature (see
 * enum drive_flag), those of the first where it is there more than once, and 0 where it is not there. A descriptor of another code, version or
 * length is passed over, and so are reserved and vendor bytes, the header's revision, and all bytes after the end that its length field states.
 *
 * It answers DRIVE_DONE; or DRIVE_SHORT_ANSWER where there are fewer than the 48 bytes of the header, the stated end lies past the bytes or
 * inside the header, or a descriptor runs past the end, and then it writes nothing.
 */
uint8_t discovery_read(const uint8_t *bytes, size_t bytes_len, uint8_t *locking, uint8_t *ranges, uint8_t *flags);

/*
 * The flat form of a script's events, for script_write and script_read, is two buffers. `fields` has the numbers of all events, one event after
 * the other, and each event always has as many as its line here says, its kind first:
 *
 *     DRIVE_READING, sensor, value in thousandths                                                                                  (3 numbers)
 *     DRIVE_ELAPSE, ticks                                                                                                          (2)
 *     DRIVE_RESET, type                                                                                                            (2)
 *     DRIVE_SENSOR_SET, sensor, mask, enabled, on-threshold, on-fraction, on-timeout, off-threshold, off-fraction, off-timeout     (10)
 *     DRIVE_BAND_SET, band, mask, ReadLockEnabled, WriteLockEnabled, ReadLocked, WriteLocked, LockOnReset, number of token bytes   (9)
 *     DRIVE_GEOMETRY, band, start, length                                                                                          (4)
 *     DRIVE_TRANSFER, 0 for a read or 1 for a write, start, count                                                                  (4)
 *
 * `tokens` has the bytes of the expressions of all band Sets, one after the other; which bytes belong to which Set is told by the Sets' last
 * numbers. A mask is the sum of the bits of the columns that the Set names: 1, 2, 4, 8, 16, 32 and 64 from enabled to off-timeout; 1, 2, 4, 8 and
 * 16 from ReadLockEnabled to LockOnReset, and 32 for the expression. Every column has its number in the flat form, and it is 0 where the mask
 * does not name the column; so is the number of token bytes where it does not name the expression. For example, a Set on sensor 0 of enabled to
 * 1 and off-timeout to 3 is 4, 0, 65, 1, 0, 0, 0, 0, 0, 3.
 */

/*
 * script_write writes the script of a header and of events in the flat form from the start of `out`, which has room for `out_len` bytes, and its
 * number of bytes to `*length`. What it writes is read by script_read as the same header and events.
 *
 * It answers DRIVE_DONE; DRIVE_OUT_OF_RANGE where no script holds them, that is where the capacity is not 1 to 2^48, the bands are not 1 to 16
 * or the sensors more than 16; where a kind is none of the seven, the numbers end within an event, or there are fewer bytes in `tokens` than the
 * band Sets count, or more; where a mask has a bit that is no column's, the number of a column is not 0 or token bytes are counted that the mask
 * does not name, or an expression has more than 1,024 bytes; or where the script would have more than DRIVE_MOST_SCRIPT bytes; and after that
 * DRIVE_SHORT_BUFFER where the script does not fit. With all but the first it writes nothing. What the drive would refuse is written: a row that
 * is not there, a value beyond its column, tokens that are broken.
 */
uint8_t script_write(uint64_t capacity, uint64_t bands, uint64_t sensors, const uint64_t *fields, size_t fields_len, const uint8_t *tokens,
                     size_t tokens_len, uint8_t *out, size_t out_len, size_t *length);

/*
 * script_read reads a script: it writes its header to `*capacity`, `*bands` and `*sensors`, and its events in the flat form from the start of
 * `fields`, which has room for `fields_len` numbers, and of `tokens`, which has room for `tokens_len` bytes, and how many numbers and bytes there
 * are to `*field_count` and `*token_count`. script_write writes the same script from them, byte by byte.
 *
 * It answers DRIVE_DONE, and leaves `*place`; DRIVE_BAD_SCRIPT where any part of the script is bad, and then it writes the place, as drive_run
 * gives it, to `*place` and nothing else; or DRIVE_SHORT_BUFFER where `fields` or `tokens` has too little room, and then it writes nothing.
 */
uint8_t script_read(const uint8_t *script, size_t script_len, uint64_t *fields, size_t fields_len, uint8_t *tokens, size_t tokens_len,
                    size_t *place, uint64_t *capacity, uint64_t *bands, uint64_t *sensors, size_t *field_count, size_t *token_count);

#ifdef __cplusplus
}
#endif

#endif
