/*
 * pewatuno.h - the wheel offset of one hour, from its records.
 *
 * C99 or later, or C++. Link with -lpewatuno.
 *
 *     uint8_t result[PEWATUNO_RESULT_LENGTH];
 *     uint32_t number = pewatuno_hour_offset(result, sizeof result, records, length);
 *
 *     if (number == 0) {
 *         int64_t cents = pewatuno_cents(pewatuno_ticks(result));
 *         ...
 *     } else {
 *         fprintf(stderr, "%s\n", pewatuno_meaning(number));   // result is as it was
 *     }
 */
#ifndef PEWATUNO_H
#define PEWATUNO_H

#include <stddef.h>
#include <stdint.h>

#ifdef __cplusplus
extern "C" {
#endif

/* The version of this header and of its library. */
#define PEWATUNO_VERSION "0.1.0"
#define PEWATUNO_VERSION_MAJOR 0
#define PEWATUNO_VERSION_MINOR 1
#define PEWATUNO_VERSION_PATCH 0

/* Bytes of the result. */
#define PEWATUNO_RESULT_LENGTH 8

/* Ticks in a cent. */
#define PEWATUNO_TICKS_PER_CENT 120

/*
 * The numbers of the settlement book. An hour's offset is refused with 1 to
 * 7, 10, 12 or 15; the others belong to calls of the book and to its programs.
 */
#define PEWATUNO_ENDS_EARLY 1            /* the bytes end early */
#define PEWATUNO_MARK_UNKNOWN 2          /* the mark is unknown, or not allowed inside CO or WD */
#define PEWATUNO_HOUR_OUTSIDE 3          /* the hour is not 1 to 24 */
#define PEWATUNO_NAME_FAULT 4            /* the name breaks its rule */
#define PEWATUNO_NUMBER_OUTSIDE 5        /* a number is outside its range */
#define PEWATUNO_LIST_FAULT 6            /* a list breaks its rule */
#define PEWATUNO_BEYOND_LIST 7           /* a schedule lies beyond its list */
#define PEWATUNO_BYTES_LEFT_OVER 8       /* bytes are left over */
#define PEWATUNO_CLOSED 9                /* the day is closed */
#define PEWATUNO_KEY_STANDS 10           /* the key stands already */
#define PEWATUNO_NO_SUCH_KEY 11          /* there is no such key */
#define PEWATUNO_HOUR_FULL 12            /* the hour holds 16 of that mark (8 for GH) */
#define PEWATUNO_NO_SPACE 13             /* free bytes are short, or 512 changes are listed */
#define PEWATUNO_NOTHING_TO_TAKE_BACK 14 /* there is nothing to take back */
#define PEWATUNO_PRICE_MISSING 15        /* a price that is needed is not filed */
#define PEWATUNO_NOT_TOGETHER 16         /* book and lent bytes do not belong together */

/*
 * Works the wheel offset of one hour from its PR, IM and EX records, which
 * stand back to back in any order in records[0 .. records_len - 1].
 *
 * Returns 0 and puts the offset into the eight result bytes (ticks of 1/120
 * cent, signed, little-endian; it may be negative), or returns a number and
 * leaves them as they were:
 *
 *   5   result_len is not 8; this comes before all else
 *   2   another mark than PR, IM or EX
 *   3   an hour outside 1 to 24, or another hour than the first record's
 *   10  a second PR, or a name twice under one mark, in any spelling
 *   12  a 17th import or export
 *   15  imports without PR
 *   1, 4, 5, 6, 7 as above
 *
 * No records, or exports alone, have offset 0.
 *
 * Lengths are in bytes. A pointer may be null where its length is 0: no records
 * have offset 0, and no result is one that is not eight bytes long, so 5. The two
 * ranges must not overlap. Any alignment will do. The records are only read, and
 * nothing is kept from one call to the next.
 *
 * Threads may call at the same time, each with a result of its own; they may
 * read the same records. The library has no data that can be written and
 * allocates nothing: the call works on its stack, and needs 24 KiB of it, as
 * measured. A thread that calls must have been given 32 KiB.
 */
uint32_t pewatuno_hour_offset(uint8_t *result, size_t result_len,
                              const uint8_t *records, size_t records_len);

/* The ticks in eight result bytes, whatever the byte order of the machine. */
static inline int64_t pewatuno_ticks(const uint8_t *result)
{
    uint64_t ticks = 0;
    int place;

    for (place = PEWATUNO_RESULT_LENGTH - 1; place >= 0; place--)
        ticks = ticks << 8 | result[place];
    return (int64_t)ticks;
}

/*
 * Ticks as whole cents, rounded half away from zero, as a statement prints them.
 * For every number of ticks. Round an amount once, when it is shown: sums are
 * taken of ticks.
 */
static inline int64_t pewatuno_cents(int64_t ticks)
{
    int64_t cents = ticks / PEWATUNO_TICKS_PER_CENT;
    int64_t rest = ticks % PEWATUNO_TICKS_PER_CENT; /* has the sign of ticks */

    if (rest >= PEWATUNO_TICKS_PER_CENT / 2)
        return cents + 1;
    if (rest <= -(PEWATUNO_TICKS_PER_CENT / 2))
        return cents - 1;
    return cents;
}

/*
 * What a number that pewatuno_hour_offset returns means, in English, without a
 * full stop; for the other numbers of the book and for any other number too.
 * The text is constant and never null.
 */
static inline const char *pewatuno_meaning(uint32_t number)
{
    switch (number) {
    case 0: return "the offset stands in the result";
    case PEWATUNO_ENDS_EARLY: return "the bytes end early";
    case PEWATUNO_MARK_UNKNOWN: return "a mark is not PR, IM or EX";
    case PEWATUNO_HOUR_OUTSIDE: return "an hour is not 1 to 24, or not that of the first record";
    case PEWATUNO_NAME_FAULT: return "a name breaks its rule";
    case PEWATUNO_NUMBER_OUTSIDE: return "a number is outside its range, or the result is not 8 bytes long";
    case PEWATUNO_LIST_FAULT: return "a list breaks its rule";
    case PEWATUNO_BEYOND_LIST: return "a schedule lies beyond its list";
    case PEWATUNO_BYTES_LEFT_OVER: return "bytes are left over";
    case PEWATUNO_CLOSED: return "the day is closed";
    case PEWATUNO_KEY_STANDS: return "the prices, or a name under one mark, are there twice";
    case PEWATUNO_NO_SUCH_KEY: return "there is no such key";
    case PEWATUNO_HOUR_FULL: return "there are more than 16 imports or exports";
    case PEWATUNO_NO_SPACE: return "free bytes are short, or 512 changes are listed";
    case PEWATUNO_NOTHING_TO_TAKE_BACK: return "there is nothing to take back";
    case PEWATUNO_PRICE_MISSING: return "there are imports, and no PR with their prices";
    case PEWATUNO_NOT_TOGETHER: return "book and lent bytes do not belong together";
    default: return "this is no number of the settlement book";
    }
}

#ifdef __cplusplus
}
#endif

#endif
