/* Counts the instructions of wrong guesses of the password, one call at a time: the processor traps after each instruction from
 * the first of melszondru_parts_receive to its return, so that the library's own work is counted and nothing else. Each guess is a Start
 * Setup packet that must be answered 14 and leave the switch and the buffer as they were. Prints a line for each switch and kind
 * of guess. Answers 0 only where all guesses at one switch, whatever its password, took the same instructions in the same order. */
#define _GNU_SOURCE
#include <signal.h>
#include <stdio.h>
#include <stdlib.h>
#include <string.h>
#include <ucontext.h>

#include "melszondru.h"

enum { TRAP_FLAG = 0x100, FILL = 0xAA, RANDOMS = 128 };

static volatile enum { IDLE, ARMED, INSIDE } state;
static volatile unsigned long steps;
static volatile uint64_t path; /* made of the address of every instruction, in order */
static greg_t home, depth;

/* Runs at the int3 in `measured`, and then after every instruction until the library returns to its caller. */
static void stepped(int number, siginfo_t *info, void *context)
{
    greg_t *now = ((ucontext_t *)context)->uc_mcontext.gregs;
    (void)number;
    (void)info;
    if (state == IDLE) {
        state = ARMED;
        now[REG_EFL] |= TRAP_FLAG;
    } else if (state == ARMED && now[REG_RIP] == (greg_t)melszondru_parts_receive) {
        state = INSIDE;
        steps = 0;
        path = 0;
        depth = now[REG_RSP];
        home = *(greg_t *)depth;
    } else if (state == INSIDE) {
        steps++;
        path = path * 0x100000001B3 + (uint64_t)now[REG_RIP];
        if (now[REG_RIP] == home && now[REG_RSP] > depth) {
            state = IDLE;
            now[REG_EFL] &= ~(greg_t)TRAP_FLAG;
        }
    }
}

static struct melszondru held;
static uint8_t packet[9], out[MELSZONDRU_ROOM];

static struct melszondru_answer receive(void)
{
    return melszondru_parts_receive(held.counters, held.numbers, held.registers, packet, sizeof packet, out, sizeof out);
}

static struct melszondru_answer measured(void)
{
    __asm__ volatile("int3" ::: "memory");
    return receive();
}

/* A packet from unit 9 to unit 5 of network 1: a command and two arguments. */
static void write_packet(uint8_t command, uint8_t first, uint8_t second)
{
    static const uint8_t header[] = {0x09, 0x00, 0x01, 0x05, 0x09};
    uint8_t sum = 0;
    memcpy(packet, header, sizeof header);
    packet[5] = command;
    packet[6] = first;
    packet[7] = second;
    for (int i = 0; i < 8; i++)
        sum += packet[i];
    packet[8] = (uint8_t)-sum;
}

static void fail(const char *why)
{
    printf("guesses: %s\n", why);
    exit(2);
}

/* The switches, and how each is brought about with a password. */
enum { RESTS, OTHER, FADES, BLINKS, SWITCHES };

static const char *const SWITCH_NAMES[SWITCHES] = {"at rest", "other registers", "fading, paddle down", "lamp blinking"};

static void make(int which, const uint8_t password[2])
{
    uint8_t image[256];
    int well;
    memset(image, which == OTHER ? 0xFF : 0x00, sizeof image);
    image[0x00] = 1;
    image[0x01] = 5;
    memcpy(image + 0x02, password, 2);
    image[0x8D] |= 0x13;
    image[0xF9] |= 40;
    well = melszondru_parts_start(image, sizeof image, held.counters, held.numbers, held.paddles, held.registers).number == 0;
    if (which == FADES) {
        write_packet(0x22, 90, 5);
        well &= receive().number == 0;
        well &= melszondru_parts_press(held.counters, held.numbers, held.paddles, held.registers, 0, out, sizeof out).number == 0;
        for (int i = 0; i < 100; i++)
            well &= melszondru_parts_tick(held.counters, held.numbers, held.paddles, held.registers, out, sizeof out).number == 0;
    }
    if (which == BLINKS) {
        write_packet(0x03, 0, 0);
        packet[8]++;
        well &= receive().number == 7;
    }
    if (!well)
        fail("a switch could not be made");
}

/* The kinds of guess, and what those of one switch took. */
enum { FIRST, SECOND, NEAR, BOTH, KINDS };

static const char *const KIND_NAMES[KINDS] = {"first byte wrong", "second byte wrong", "both wrong, near or plain", "both wrong, any"};

static struct {
    unsigned long guesses, least, most;
} took[KINDS];

static uint64_t first_path;
static int other_path;

static void note(int kind)
{
    if (took[kind].guesses == 0)
        took[kind].least = took[kind].most = steps;
    if (steps < took[kind].least)
        took[kind].least = steps;
    if (took[kind].most < steps)
        took[kind].most = steps;
    took[kind].guesses++;
    if (first_path == 0)
        first_path = path;
    other_path |= path != first_path;
}

/* One guess, left out where it is not of its kind: the right byte right and the wrong one wrong. */
static void guess(int kind, const uint8_t password[2], uint8_t first, uint8_t second)
{
    struct melszondru before = held;
    struct melszondru_answer answer;
    if ((first == password[0]) != (kind == SECOND) || (second == password[1]) != (kind == FIRST))
        return;
    write_packet(0x03, first, second);
    memset(out, FILL, sizeof out);
    answer = measured();
    if (answer.number != 14 || memcmp(&held, &before, sizeof held) != 0)
        fail("a wrong guess was not answered 14, or changed the switch");
    for (size_t i = 0; i < sizeof out; i++)
        if (out[i] != FILL)
            fail("a wrong guess changed the buffer");
    note(kind);
}

/* A number that looks drawn by chance, the same ones in every run. */
static uint32_t drawn(void)
{
    static uint32_t last = 20250101;
    last ^= last << 13;
    last ^= last >> 17;
    last ^= last << 5;
    return last;
}

static void guess_all(const uint8_t password[2])
{
    static const uint8_t PLAIN[] = {0x00, 0x01, 0x7F, 0x80, 0xFE, 0xFF};
    for (int byte = 0; byte < 256; byte++) {
        guess(FIRST, password, (uint8_t)byte, password[1]);
        guess(SECOND, password, password[0], (uint8_t)byte);
    }
    guess(NEAR, password, password[1], password[0]);
    guess(NEAR, password, (uint8_t)(password[0] + 1), (uint8_t)(password[1] - 1));
    guess(NEAR, password, (uint8_t)(password[0] - 1), (uint8_t)(password[1] + 1));
    for (int bit = 0; bit < 8; bit++)
        guess(NEAR, password, (uint8_t)(password[0] ^ 1 << bit), (uint8_t)(password[1] ^ 1 << bit));
    for (size_t i = 0; i < sizeof PLAIN; i++)
        for (size_t j = 0; j < sizeof PLAIN; j++)
            guess(NEAR, password, PLAIN[i], PLAIN[j]);
    for (int i = 0; i < RANDOMS; i++) {
        uint32_t bytes = drawn();
        guess(BOTH, password, (uint8_t)(bytes >> 8), (uint8_t)bytes);
    }
}

/* Every password and guess at one switch. Answers 1 where they took one number of instructions, and the same ones in order. */
static int play(int which)
{
    static const uint8_t PASSWORDS[][2] = {{0x12, 0x34}, {0x00, 0x00}, {0xFF, 0xFF}, {0x00, 0xFF},
                                           {0xFF, 0x00}, {0x80, 0x01}, {0x5A, 0x5A}, {0xC4, 0xE9}};
    int even = 1;
    memset(took, 0, sizeof took);
    first_path = 0;
    other_path = 0;
    for (size_t i = 0; i < sizeof PASSWORDS / sizeof *PASSWORDS; i++) {
        make(which, PASSWORDS[i]);
        guess_all(PASSWORDS[i]);
    }
    for (int kind = 0; kind < KINDS; kind++) {
        printf("%-22s%-28s%7lu%7lu", SWITCH_NAMES[which], KIND_NAMES[kind], took[kind].guesses, took[kind].least);
        if (took[kind].least != took[kind].most)
            printf(" to %lu", took[kind].most);
        printf("\n");
        even &= took[kind].least == took[0].least && took[kind].most == took[0].least;
    }
    if (!even)
        printf("%-22sTHE COUNTS DIFFER\n", SWITCH_NAMES[which]);
    else if (other_path)
        printf("%-22sONE COUNT, BUT NOT THE SAME INSTRUCTIONS\n", SWITCH_NAMES[which]);
    return even && !other_path;
}

int main(void)
{
    struct sigaction act;
    int even = 1;
    memset(&act, 0, sizeof act);
    act.sa_sigaction = stepped;
    act.sa_flags = SA_SIGINFO;
    sigaction(SIGTRAP, &act, NULL);
    printf("%-22s%-28s%7s instructions\n", "switch", "guess", "guesses");
    for (int which = 0; which < SWITCHES; which++)
        even &= play(which);
    printf(even ? "at each switch every wrong guess takes the same instructions\n" : "wrong guesses differ\n");
    return even ? 0 : 1;
}
