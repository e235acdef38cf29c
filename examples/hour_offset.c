/*
 * Works the wheel offset of one hour, as a trading desk would: two imports
 * against one export at a price of $30.00.
 *
 *     cc -o hour_offset hour_offset.c $(pkg-config --cflags --libs pewatuno)
 */
#include <inttypes.h>
#include <stdio.h>
#include <string.h>

#include <pewatuno.h>

#define INTERVALS 12

/* One step of an offer: a price in cents per MWh up to a quantity in tenths of a MW. */
struct step {
    int32_t price;
    uint32_t quantity;
};

/* Records back to back. PR, 16 imports and 16 exports never take more than this. */
struct feed {
    uint8_t bytes[8192];
    size_t length;
};

static void put_byte(struct feed *feed, unsigned byte)
{
    if (feed->length < sizeof feed->bytes)
        feed->bytes[feed->length++] = (uint8_t)byte;
}

static void put_number(struct feed *feed, uint32_t number)
{
    int place;

    for (place = 0; place < 4; place++)
        put_byte(feed, number >> 8 * place & 0xFF);
}

/* The same number for all twelve intervals. */
static void put_throughout(struct feed *feed, uint32_t number)
{
    int interval;

    for (interval = 0; interval < INTERVALS; interval++)
        put_number(feed, number);
}

static void put_start(struct feed *feed, const char *mark, unsigned hour)
{
    put_byte(feed, (unsigned char)mark[0]);
    put_byte(feed, (unsigned char)mark[1]);
    put_byte(feed, hour);
}

/* A name is spelled as in a web address: A/B may stand as A/B or A%2FB. */
static void put_name(struct feed *feed, const char *name)
{
    put_byte(feed, (unsigned)strlen(name));
    while (*name != '\0')
        put_byte(feed, (unsigned char)*name++);
}

static void put_offer(struct feed *feed, const struct step *steps, unsigned count)
{
    unsigned place;

    put_byte(feed, count);
    for (place = 0; place < count; place++) {
        put_number(feed, (uint32_t)steps[place].price);
        put_number(feed, steps[place].quantity);
    }
}

static void add_prices(struct feed *feed, unsigned hour, int32_t energy, int32_t pre_dispatch)
{
    put_start(feed, "PR", hour);
    put_throughout(feed, (uint32_t)energy);
    put_number(feed, (uint32_t)pre_dispatch);
}

static void add_import(struct feed *feed, unsigned hour, const char *name, uint32_t quantity,
                       const struct step *steps, unsigned count)
{
    put_start(feed, "IM", hour);
    put_name(feed, name);
    put_throughout(feed, quantity);
    put_offer(feed, steps, count);
}

static void add_export(struct feed *feed, unsigned hour, const char *name, uint32_t quantity)
{
    put_start(feed, "EX", hour);
    put_name(feed, name);
    put_throughout(feed, quantity);
}

/* Dollars with two decimals. Whole dollars alone would lose the sign of -0.50. */
static void print_dollars(int64_t cents)
{
    uint64_t size = cents < 0 ? -(uint64_t)cents : (uint64_t)cents;

    printf("%s%" PRIu64 ".%02" PRIu64 "\n", cents < 0 ? "-" : "", size / 100, size % 100);
}

int main(void)
{
    static const struct step first[] = {{4000, 100}}, second[] = {{3200, 200}};
    static struct feed feed;
    uint8_t result[PEWATUNO_RESULT_LENGTH];
    uint32_t number;

    add_prices(&feed, 5, 3000, 3000);
    add_import(&feed, 5, "A%2FB", 100, first, 1);
    add_import(&feed, 5, "C", 200, second, 1);
    add_export(&feed, 5, "D", 250);

    number = pewatuno_hour_offset(result, sizeof result, feed.bytes, feed.length);
    if (number != 0) {
        fprintf(stderr, "hour_offset: refused with %" PRIu32 ": %s\n", number,
                pewatuno_meaning(number));
        return 1;
    }
    printf("The wheel offset of hour 5 is $");
    print_dollars(pewatuno_cents(pewatuno_ticks(result)));
    return 0;
}
