/*
 * How much stack one call from C touches: the bytes between its caller and the
 * lowest byte that it changed, on the painted stack of a thread of its own.
 *
 *     call_stack < RECORDS
 *
 * prints that number, the greater of two paints, as a call may write a byte
 * that looks like one of them.
 */
#define _POSIX_C_SOURCE 200809L
#include <pthread.h>
#include <stdio.h>
#include <string.h>

#include <pewatuno.h>

#define ROOM 8192
#define STACK (1024 * 1024)
#define PAGE 4096

static unsigned char space[STACK + PAGE];
static uint8_t records[ROOM];
static size_t length;
static uint32_t number;
static const unsigned char *caller;

static void *call(void *unused)
{
    uint8_t result[PEWATUNO_RESULT_LENGTH];

    caller = result;
    number = pewatuno_hour_offset(result, sizeof result, records, length);
    return unused;
}

/* The lowest byte of the stack, at the start of a page. */
static unsigned char *stack(void)
{
    return space + (PAGE - (uintptr_t)space % PAGE) % PAGE;
}

/* Bytes that the call touched; 0 without a thread. */
static size_t touched(unsigned char paint)
{
    const unsigned char *lowest = stack();
    pthread_attr_t painted;
    pthread_t thread;

    memset(stack(), paint, STACK);
    if (pthread_attr_init(&painted) != 0 || pthread_attr_setstack(&painted, stack(), STACK) != 0)
        return 0;
    if (pthread_create(&thread, &painted, call, NULL) != 0)
        return 0;
    pthread_join(thread, NULL);
    while (*lowest == paint)
        lowest++;
    return (size_t)(caller - lowest);
}

int main(void)
{
    size_t first, second;

    length = fread(records, 1, sizeof records, stdin);
    first = touched(0xA5);
    second = touched(0x5A);
    if (number != 0) {
        fprintf(stderr, "call_stack: refused with %u\n", (unsigned)number);
        return 1;
    }
    printf("%zu\n", first > second ? first : second);
    return first == 0 || second == 0;
}
