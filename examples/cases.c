/* Cases (a) to (d) of document 01's "Numbers to test by", played through the library as a C program would: unit 5 of
 * network 1, in Normal at step 80, its load one that dims. Then what a start leaves in the arrays, refused and accepted.
 * Prints a line for each and answers 0 only where all came out as the document and the header have them. */
#include <stdio.h>
#include <string.h>

#include "melszondru.h"

static const uint8_t PASSWORD[2] = {0x12, 0x34};

/* A start from the first `length` bytes of the image, with one more at its end. */
static struct melszondru_answer start_from(struct melszondru *s, size_t length)
{
    uint8_t image[257] = {0};
    image[0x00] = 1;
    image[0x01] = 5;
    memcpy(image + 0x02, PASSWORD, 2);
    image[0x40] = 3;    /* the first receive component listens to link 3 */
    image[0x8D] = 0x13; /* dimming capable, default rate 3 */
    image[0xF9] = 40;   /* the saved percent: step 80 */
    return melszondru_start(s, image, length);
}

static struct melszondru_answer start(struct melszondru *s)
{
    return start_from(s, MELSZONDRU_REGISTERS);
}

static struct melszondru_answer receive(struct melszondru *s, const uint8_t *packet, size_t length, uint8_t out[MELSZONDRU_ROOM])
{
    memset(out, 0xAA, MELSZONDRU_ROOM);
    return melszondru_receive(s, packet, length, out, MELSZONDRU_ROOM);
}

static int told(const char *what, int well)
{
    printf("%s: %s\n", what, well ? "ok" : "WRONG");
    return well;
}

/* (a) A status report is answered by the percent. */
static int case_a(void)
{
    static const uint8_t asks[] = {0x07, 0x00, 0x01, 0x05, 0x09, 0x30, 0xBA};
    static const uint8_t tells[] = {0x08, 0x00, 0x01, 0x09, 0x05, 0x86, 0x28, 0x3B};
    struct melszondru s;
    uint8_t out[MELSZONDRU_ROOM];
    int begun = start(&s).number == MELSZONDRU_DONE;
    struct melszondru_answer a = receive(&s, asks, sizeof asks, out);
    uint8_t length;
    const uint8_t *reply = melszondru_packet(&a, out, 0, &length);
    int rest = 1;
    for (size_t i = sizeof tells; i < sizeof out; i++)
        rest &= out[i] == 0xAA;
    return told("(a) report status", begun && a.number == MELSZONDRU_DONE && a.count == 1 && length == sizeof tells && a.lengths[1] == 0
                                         && memcmp(reply, tells, sizeof tells) == 0 && rest);
}

/* (b) Goto by link 3, at once. */
static int case_b(void)
{
    static const uint8_t goes[] = {0x89, 0x00, 0x01, 0x03, 0x09, 0x22, 0x32, 0x00, 0x16};
    struct melszondru s;
    uint8_t out[MELSZONDRU_ROOM];
    int before = start(&s).level;
    struct melszondru_answer a = receive(&s, goes, sizeof goes, out);
    return told("(b) goto by link",
                before == 80 && a.number == MELSZONDRU_DONE && a.count == 0 && a.level == 100 && a.output == 100);
}

/* (c) The right password enters Setup. */
static int case_c(void)
{
    static const uint8_t opens[] = {0x09, 0x00, 0x01, 0x05, 0x09, 0x03, 0x12, 0x34, 0x9F};
    struct melszondru s;
    uint8_t out[MELSZONDRU_ROOM];
    int before = start(&s).mode;
    struct melszondru_answer a = receive(&s, opens, sizeof opens, out);
    return told("(c) right password", before == MELSZONDRU_NORMAL && a.number == MELSZONDRU_DONE && a.mode == MELSZONDRU_SETUP);
}

/* (d) Each of the 65,535 others is 14, and nothing of the switch changes. */
static int case_d(void)
{
    struct melszondru s, before;
    uint8_t out[MELSZONDRU_ROOM];
    unsigned refused = 0;
    start(&s);
    before = s;
    for (unsigned guess = 0; guess < 65536; guess++) {
        uint8_t packet[9] = {0x09, 0x00, 0x01, 0x05, 0x09, 0x03, (uint8_t)(guess >> 8), (uint8_t)guess, 0};
        uint8_t sum = 0;
        for (int i = 0; i < 8; i++)
            sum += packet[i];
        packet[8] = (uint8_t)-sum;
        if (packet[6] == PASSWORD[0] && packet[7] == PASSWORD[1])
            continue;
        struct melszondru_answer a = receive(&s, packet, sizeof packet, out);
        refused += a.number == MELSZONDRU_WRONG_PASSWORD && a.mode == MELSZONDRU_NORMAL && a.count == 0
                   && memcmp(&s, &before, sizeof s) == 0;
    }
    return told("(d) the 65,535 wrong passwords", refused == 65535);
}

/* A switch that is in Setup, fades, and has a contact down. */
static int busy(struct melszondru *s)
{
    static const uint8_t opens[] = {0x09, 0x00, 0x01, 0x05, 0x09, 0x03, 0x12, 0x34, 0x9F};
    static const uint8_t fades[] = {0x89, 0x00, 0x01, 0x03, 0x09, 0x22, 0x32, 0x05, 0x11};
    uint8_t out[MELSZONDRU_ROOM];
    int well = start(s).number == MELSZONDRU_DONE && receive(s, opens, sizeof opens, out).mode == MELSZONDRU_SETUP;
    well &= receive(s, fades, sizeof fades, out).number == MELSZONDRU_DONE;
    well &= melszondru_press(s, MELSZONDRU_LOCAL_TOP, out, sizeof out).number == MELSZONDRU_DONE;
    for (int i = 0; i < 100; i++)
        well &= melszondru_tick(s, out, sizeof out).number == MELSZONDRU_DONE;
    return well && s->counters[5] != 0 && s->counters[6] != 0 && s->numbers[5] != 0 && s->paddles[0] != 0;
}

/* A refused start is 1 and nothing else, and leaves every byte of a running switch. */
static int case_refused(void)
{
    static const size_t lengths[] = {0, 1, 255, 257};
    static const struct melszondru_answer one = {{0}, 0, MELSZONDRU_WRONG_IMAGE, 0, 0, 0, 0};
    struct melszondru s, before;
    int well = busy(&s);
    before = s;
    for (size_t i = 0; i < sizeof lengths / sizeof *lengths; i++) {
        struct melszondru_answer a = start_from(&s, lengths[i]);
        well &= memcmp(&a, &one, sizeof a) == 0 && memcmp(&s, &before, sizeof s) == 0;
    }
    return told("a refused start leaves all", well);
}

/* A start hangs on the image alone: over bytes of 0xFF and over a running switch it leaves what it leaves over zeros. */
static int case_forgets(void)
{
    struct melszondru zeros, ones, running;
    memset(&zeros, 0, sizeof zeros);
    memset(&ones, 0xFF, sizeof ones);
    int well = busy(&running);
    struct melszondru_answer a = start(&zeros), b = start(&ones), c = start(&running);
    well &= a.number == MELSZONDRU_DONE && memcmp(&a, &b, sizeof a) == 0 && memcmp(&a, &c, sizeof a) == 0;
    well &= memcmp(&zeros, &ones, sizeof zeros) == 0 && memcmp(&zeros, &running, sizeof zeros) == 0;
    return told("a start forgets what was there", well);
}

int main(void)
{
    int well = case_a();
    well &= case_b();
    well &= case_c();
    well &= case_d();
    well &= case_refused();
    well &= case_forgets();
    return well ? 0 : 1;
}
