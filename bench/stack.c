/* The deepest stack of each function of the library, in bytes: every call is made on a stack of its own that was painted before.
 * What a call of an empty function leaves there is taken off. The calls play an evening that sends by both paddles, enters Setup
 * and Factory Default, and receives every command, right and wrong. */
#include <stdio.h>
#include <string.h>
#include <ucontext.h>

#include "melszondru.h"

enum { STACK = 65536, PAINT = 0xA5 };

enum function { EMPTY, START, PRESS, RELEASE, TICK, RECEIVE, RESTART, IMAGE, FUNCTIONS };

static const char *const NAMES[FUNCTIONS] = {"",      "melszondru_parts_start",   "melszondru_parts_press",   "melszondru_parts_release",
                                             "melszondru_parts_tick", "melszondru_parts_receive", "melszondru_parts_restart", "melszondru_parts_image"};

static struct melszondru held;
static struct melszondru_answer answer;
static uint8_t image[MELSZONDRU_REGISTERS], out[MELSZONDRU_ROOM], contact;
static const uint8_t *packet;
static size_t length;

#define CORE held.counters, held.numbers
#define WHOLE CORE, held.paddles, held.registers

static void empty(void) {}
static void starts(void) { answer = melszondru_parts_start(image, sizeof image, WHOLE); }
static void presses(void) { answer = melszondru_parts_press(WHOLE, contact, out, sizeof out); }
static void releases(void) { answer = melszondru_parts_release(WHOLE, contact, out, sizeof out); }
static void ticks(void) { answer = melszondru_parts_tick(WHOLE, out, sizeof out); }
static void receives(void) { answer = melszondru_parts_receive(CORE, held.registers, packet, length, out, sizeof out); }
static void restarts(void) { answer = melszondru_parts_restart(WHOLE, out, sizeof out); }
static void images(void) { melszondru_parts_image(held.numbers, held.registers, image); }

static void (*const CALLS[FUNCTIONS])(void) = {empty, starts, presses, releases, ticks, receives, restarts, images};

static uint8_t stack[STACK];
static size_t deepest[FUNCTIONS];

static void call(enum function which)
{
    ucontext_t here, there;
    size_t untouched = 0;
    memset(stack, PAINT, STACK);
    getcontext(&there);
    there.uc_stack.ss_sp = stack;
    there.uc_stack.ss_size = STACK;
    there.uc_link = &here;
    makecontext(&there, CALLS[which], 0);
    swapcontext(&here, &there);
    while (untouched < STACK && stack[untouched] == PAINT)
        untouched++;
    if (deepest[which] < STACK - untouched)
        deepest[which] = STACK - untouched;
}

static void edge(enum function which, uint8_t number)
{
    contact = number;
    call(which);
}

static void wait(unsigned count)
{
    while (count--)
        call(TICK);
}

/* A packet to unit 5 of network 1 or to link 3, with its checksum. */
static void send(int link, uint8_t destination, const uint8_t *message, size_t size)
{
    static uint8_t bytes[24];
    uint8_t sum = 0;
    bytes[0] = (uint8_t)((link ? 0x80 : 0) | (size + 6));
    bytes[1] = 0;
    bytes[2] = 1;
    bytes[3] = destination;
    bytes[4] = 9;
    memcpy(bytes + 5, message, size);
    for (size_t i = 0; i < size + 5; i++)
        sum += bytes[i];
    bytes[size + 5] = (uint8_t)-sum;
    packet = bytes;
    length = size + 6;
    call(RECEIVE);
}

static void every_command(void)
{
    static const uint8_t COMMANDS[] = {0x03, 0x04, 0x10, 0x11, 0x20, 0x21, 0x22, 0x23, 0x24, 0x25, 0x30, 0x31, 0x90};
    for (size_t i = 0; i < sizeof COMMANDS; i++)
        for (size_t size = 1; size <= 18; size++)
            for (int link = 0; link < 2; link++) {
                uint8_t message[18] = {0};
                message[0] = COMMANDS[i];
                message[1] = 0x40;
                message[2] = 16;
                send(link, link ? 3 : 5, message, size);
            }
}

static void taps(uint8_t top, uint8_t bottom)
{
    for (uint8_t i = 0; i < top || i < bottom; i++) {
        if (i < top)
            edge(PRESS, 0);
        if (i < bottom)
            edge(PRESS, 3);
        wait(70);
        if (i < top)
            edge(RELEASE, 0);
        if (i < bottom)
            edge(RELEASE, 3);
        wait(10);
    }
    wait(200);
}

static void evening(void)
{
    static const uint8_t OPENS[] = {0x03, 0x12, 0x34};
    static const uint8_t SETS[] = {0x11, 0xF0, 1, 2, 3, 4, 5, 6, 7, 8, 9, 10, 11, 12, 13, 14, 15, 16};
    call(START);
    every_command();
    taps(1, 1);
    taps(2, 2);
    edge(PRESS, 1);
    wait(200);
    edge(RELEASE, 1);
    wait(500);
    send(0, 5, OPENS, sizeof OPENS);
    send(0, 5, SETS, sizeof SETS);
    every_command();
    call(IMAGE);
    call(RESTART);
    taps(5, 0);
    taps(10, 0);
    every_command();
    edge(PRESS, 9);
    edge(RELEASE, 9);
    call(RESTART);
}

int main(void)
{
    image[0x00] = 1;
    image[0x01] = 5;
    image[0x02] = 0x12;
    image[0x03] = 0x34;
    image[0x40] = 3;
    memcpy(image + 0x70, "\x07\x00\x01\x0E\x00\x08\x00\x01\x0E\x00", 10);
    memcpy(image + 0x90, "\x22\x64\x03\x20\xFF\xFF", 6);
    image[0x8D] = 0x13;
    call(EMPTY);
    evening();
    for (int which = START; which < FUNCTIONS; which++)
        printf("%s %zu\n", NAMES[which], deepest[which] - deepest[EMPTY]);
    return 0;
}
