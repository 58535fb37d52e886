/* A switch in a firmware's main loop: 240 ticks a second, edges from the contacts, packets from the line and to it, and the image
 * saved when it changed. "What the board gives" is what a port writes anew; here the board is simulated at the end of the file, by
 * a script of 75 seconds that pass without a clock and without sleep. Prints what it did, and answers 0 only where all came out as
 * it should.
 *
 * How often the image changes:
 *   - once at a start or restart (0xFC) and once at an entry into Setup (0xFA), each until its counter stands at 255;
 *   - every 480 ticks, so every 2 seconds, where the percent is another than at the last such tick (0xF9): a fade of 2 seconds
 *     changes it once or twice;
 *   - with Set Registers in Setup, with Store Preset, and on entering Factory Default.
 * Level commands and Store Preset need no password, so whoever reaches the line can change the image at will: one Blink packet of
 * value 8 changes 0xF9 at every save, 43,200 times a day, until something ends it; Goto and Store Preset in turns
 * change a preset with every second packet. Where a place of flash stands 10,000 erasures and 0xF9 changes at every save, it lasts
 *
 *                                                             written at once    at most once a minute
 *     where each image takes an erasure                       5.6 hours          6.9 days
 *     where 15, with a number and a sum, fill 4 KB first      3.5 days           104 days
 *     the same over 16 such sectors in turn                   56 days            4.6 years
 *
 * So `save` writes at once only what it finds changed after a change of mode (into Setup that takes the password or a paddle; what
 * was set there is then written at its end), and else at most once in APART. A power cut may then lose the changes of up to APART.
 * Memory without wear (FRAM) needs none of this. */
#include <stdio.h>
#include <string.h>

#include "melszondru.h"

enum { APART = 60 * MELSZONDRU_SECOND };

/* What the board gives. Interrupts fill its queues and count its ticks; none of them calls the library. */
enum { LONGEST = MELSZONDRU_PLACE + 1 }; /* a byte more than a packet may have, so that a longer one is still seen to be so */
static uint32_t board_ticks(void);       /* the ticks since power came */
static uint8_t board_contacts(void);     /* bit n: contact n is down, debounced */
static int board_received(uint8_t packet[LONGEST], size_t *length);   /* the next packet of the queue; 0: there is none */
static int board_sends(const uint8_t *packet, uint8_t length);        /* takes a copy to send; 0: its queue is full */
static void board_shows(uint8_t output, uint8_t colour);              /* the output in steps, 0 to 200, and the lamp */
static void board_saved(uint8_t image[MELSZONDRU_REGISTERS]);         /* the last image that was saved whole */
static void board_saves(const uint8_t image[MELSZONDRU_REGISTERS]);   /* not over the last one: power may go in between */

/* The firmware. */
static struct melszondru held;
static struct melszondru_answer last;            /* the last answer */
static uint8_t out[MELSZONDRU_ROOM];             /* one buffer for all events: what was sent is copied at once */
static uint8_t saved[MELSZONDRU_REGISTERS];      /* the image as it is in flash */
static uint8_t saved_mode;
static uint32_t saved_tick, done;                /* the tick of the last save, and the ticks that the switch was told of */
static uint8_t down;                             /* the contacts as the switch was told */
static uint32_t refused, dropped;

/* Every event's answer comes by here: what is sent is handed on, what is shown is shown. */
static void told(struct melszondru_answer answer)
{
    const uint8_t *packet;
    uint8_t length;
    for (unsigned n = 0; (packet = melszondru_packet(&answer, out, n, &length)) != NULL; n++)
        dropped += !board_sends(packet, length);
    refused += answer.number != MELSZONDRU_DONE;
    board_shows(answer.output, answer.colour);
    last = answer;
}

static void edges(void)
{
    uint8_t now = board_contacts();
    for (uint8_t contact = MELSZONDRU_LOCAL_TOP; contact <= MELSZONDRU_SLAVE_BOTTOM; contact++) {
        uint8_t bit = (uint8_t)(1u << contact);
        if ((now & bit) && !(down & bit))
            told(melszondru_press(&held, contact, out, sizeof out));
        if (!(now & bit) && (down & bit))
            told(melszondru_release(&held, contact, out, sizeof out));
    }
    down = now;
}

static void packets(void)
{
    uint8_t packet[LONGEST];
    size_t length;
    while (board_received(packet, &length))
        told(melszondru_receive(&held, packet, length, out, sizeof out));
}

static void save(uint32_t apart)
{
    uint8_t image[MELSZONDRU_REGISTERS];
    melszondru_image(&held, image);
    if (memcmp(image, saved, sizeof image) == 0 || (last.mode == saved_mode && done - saved_tick < apart))
        return;
    board_saves(image);
    memcpy(saved, image, sizeof image);
    saved_mode = last.mode;
    saved_tick = done;
}

/* Power came: 0 where there is no switch to run. The start counts in 0xFC, so its image is saved at once. */
static int begin(void)
{
    board_saved(saved);
    last = melszondru_start(&held, saved, sizeof saved);
    if (last.number != MELSZONDRU_DONE)
        return 0;
    done = board_ticks();
    down = 0;
    saved_mode = last.mode;
    board_shows(last.output, last.colour);
    save(0);
    return 1;
}

/* One pass of the main loop. A pass that comes late makes up for the ticks it missed. */
static void pass(uint32_t apart)
{
    while (done != board_ticks()) {
        edges();
        packets();
        told(melszondru_tick(&held, out, sizeof out));
        done++;
        save(apart);
    }
}

/* The board, simulated: unit 5 of network 1, at 40 % when power comes. */
static const struct { uint32_t tick; uint8_t contacts; } HANDS[] = {
    {500, 1}, {600, 0},      /* a tap on the local top paddle: full, by a fade of 2 seconds */
    {17000, 8}, {17400, 0},  /* the slave's bottom paddle held: down as long as it is held */
};

static const struct { uint32_t tick; uint8_t length, bytes[LONGEST]; const char *what; } LINE[] = {
    {1500, 7, {0x07, 0x00, 0x01, 0x05, 0x09, 0x30, 0xBA}, "Report Status"},
    {1550, 7, {0x07, 0x00, 0x01, 0x05, 0x09, 0x30, 0xBB}, "Report Status with a wrong sum"},
    {1600, 9, {0x89, 0x00, 0x01, 0x03, 0x09, 0x22, 0x32, 0x00, 0x16}, "Goto 50 % by link 3"},
    {2100, 9, {0x09, 0x00, 0x01, 0x05, 0x09, 0x03, 0x12, 0x34, 0x9F}, "Start Setup"},
    {2200, 9, {0x09, 0x00, 0x01, 0x05, 0x09, 0x11, 0x43, 0x04, 0x90}, "Set Registers: link 4 for the second component"},
    {2250, 9, {0x09, 0x00, 0x01, 0x05, 0x09, 0x11, 0x46, 0x05, 0x8C}, "Set Registers: link 5 for the third"},
    {2300, 7, {0x07, 0x00, 0x01, 0x05, 0x09, 0x04, 0xE6}, "Stop Setup"},
    {2500, 8, {0x88, 0x00, 0x01, 0x03, 0x09, 0x25, 0x08, 0x3E}, "Blink 8 by link 3"},
    {4890, 7, {0x87, 0x00, 0x01, 0x03, 0x09, 0x24, 0x48}, "Fade Stop by link 3"},
};

enum { LATE = 2000, END = 18000, SENDS = 8 };
static uint32_t ticks, heard, writes;
static uint8_t flash[MELSZONDRU_REGISTERS], output, lamp, sent[SENDS][MELSZONDRU_PLACE], sends;
static int quiet;

static uint32_t board_ticks(void) { return ticks; }

static uint8_t board_contacts(void)
{
    uint8_t contacts = 0;
    for (size_t i = 0; i < sizeof HANDS / sizeof *HANDS && HANDS[i].tick <= ticks; i++)
        contacts = HANDS[i].contacts;
    return contacts;
}

static int board_received(uint8_t packet[LONGEST], size_t *length)
{
    if (heard == sizeof LINE / sizeof *LINE || LINE[heard].tick > ticks)
        return 0;
    if (!quiet)
        printf("%6lu  received: %s\n", (unsigned long)ticks, LINE[heard].what);
    *length = LINE[heard].length;
    memcpy(packet, LINE[heard++].bytes, *length);
    return 1;
}

static int board_sends(const uint8_t *packet, uint8_t length)
{
    if (sends == SENDS)
        return 0;
    memcpy(sent[sends++], packet, length);
    if (quiet)
        return 1;
    printf("%6lu  sent:    ", (unsigned long)ticks);
    for (uint8_t i = 0; i < length; i++)
        printf(" %02x", packet[i]);
    printf("\n");
    return 1;
}

static void board_shows(uint8_t step, uint8_t colour)
{
    output = step;
    lamp = colour;
}

static void board_saved(uint8_t image[MELSZONDRU_REGISTERS]) { memcpy(image, flash, sizeof flash); }

static void board_saves(const uint8_t image[MELSZONDRU_REGISTERS])
{
    memcpy(flash, image, sizeof flash);
    writes++;
    if (!quiet)
        printf("%6lu  saved:    %u %%, %u entries into Setup, %u starts\n", (unsigned long)ticks, image[0xF9], image[0xFA],
               image[0xFC]);
}

/* The image that the works put into flash. */
static void board_new(void)
{
    memset(flash, 0, sizeof flash);
    memcpy(flash, "\x01\x05\x12\x34", 4);
    flash[0x40] = 3; /* the first receive component: link 3 */
    /* The top's single and the bottom's Release tell the level, by links 7 and 8. */
    memcpy(flash + 0x70, "\x07\x0E\x0F\x0F\x0F\x08\x0F\x0F\x0F\x0E", 10);
    memcpy(flash + 0x7A, "\x64\xFF\x64\x00\x00\xFF\x00\x00", 8);
    flash[0x8B] = 0x09; /* green on, red off */
    flash[0x8D] = 0x13; /* dimming capable, default rate 3 */
    flash[0xF9] = 40;
    memset(sent, 0, sizeof sent);
    ticks = heard = writes = refused = dropped = 0;
    sends = 0;
}

/* The script from power to power cut. */
static int evening(uint32_t apart)
{
    board_new();
    if (!begin())
        return 0;
    while (ticks < END) {
        ticks += ticks == LATE ? 5 : 1;
        pass(apart);
    }
    printf("%6lu  power cut: step %u, output %u, lamp %u; %u sent, %lu refused\n", (unsigned long)ticks, last.level, output, lamp,
           sends, (unsigned long)refused);
    return 1;
}

/* What the script must come to: the packets, so many saves, and the percent that a start finds after the cut. */
static int well(uint32_t saves, uint8_t percent)
{
    static const uint8_t SENT[][MELSZONDRU_PLACE] = {
        {0x88, 0x00, 0x01, 0x07, 0x05, 0x86, 0x28, 0xBD}, /* the tap, at 40 % */
        {0x08, 0x00, 0x01, 0x09, 0x05, 0x86, 0x64, 0xFF}, /* the status, 100 % */
        {0x88, 0x00, 0x01, 0x08, 0x05, 0x86, 0x48, 0x9C}, /* the paddle let go, at 72 % */
    };
    int good = sends == sizeof SENT / sizeof *SENT && memcmp(sent, SENT, sizeof SENT) == 0;
    good &= refused == 1 && dropped == 0 && done == END && writes == saves;
    good &= last.level == 145 && output == 145 && lamp == MELSZONDRU_GREEN && last.mode == MELSZONDRU_NORMAL;
    good &= flash[0x02] == 0x12 && flash[0x43] == 4 && flash[0x46] == 5 && flash[0xFA] == 1 && flash[0xFC] == 1;
    good &= begin() && last.level == 2 * percent && flash[0xFC] == 2;
    return good;
}

int main(void)
{
    int at_once, apart;
    at_once = evening(0) && well(15, 72);
    quiet = 1;
    apart = evening(APART) && well(4, 100);
    printf("saved at once: %s; at most once in %d seconds but for a change of mode: %s\n", at_once ? "15 times, ok" : "WRONG",
           APART / MELSZONDRU_SECOND, apart ? "4 times, ok" : "WRONG");
    return at_once && apart ? 0 : 1;
}
