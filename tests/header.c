/* Every function and name of the header used once, in what C89 and C++98 have in common. Answers 0, or the line that went wrong. */
#include <string.h>

#include "melszondru.h"
#include "melszondru.h"

#define WANT(what) do { if (!(what)) return __LINE__; } while (0)

#if MELSZONDRU_HEADER_VERSION != 3 || MELSZONDRU_LANDING != 0
#error "another header"
#endif

static uint8_t image[MELSZONDRU_REGISTERS], again[MELSZONDRU_REGISTERS], out[MELSZONDRU_ROOM];
static const uint8_t unwritten[MELSZONDRU_ROOM] = {0}; /* for what sends nothing */
static struct melszondru one;

/* Both paddles tapped once, both with a link: the two packets of one tick, 8 and 9 bytes long, by number. */
static int two_packets(void)
{
    struct melszondru_answer answer;
    const uint8_t *packet;
    uint8_t length;
    unsigned n;
    int tick;
    WANT(melszondru_press(&one, MELSZONDRU_LOCAL_TOP, unwritten, sizeof unwritten).number == MELSZONDRU_DONE);
    WANT(melszondru_press(&one, MELSZONDRU_SLAVE_BOTTOM, out, sizeof out).number == MELSZONDRU_DONE);
    for (tick = 0; tick < 60; tick++)
        WANT(melszondru_tick(&one, out, sizeof out).count == 0);
    WANT(melszondru_release(&one, MELSZONDRU_LOCAL_TOP, out, sizeof out).count == 0);
    answer = melszondru_release(&one, MELSZONDRU_SLAVE_BOTTOM, out, sizeof out);
    WANT(melszondru_packet(&answer, out, 0, &length) == NULL && length == 0);
    for (tick = 0; tick < 180; tick++)
        answer = melszondru_tick(&one, out, sizeof out);
    WANT(answer.count == MELSZONDRU_PADDLES && answer.lengths[0] == 8 && answer.lengths[1] == 9);
    for (n = 0; n < MELSZONDRU_PADDLES; n++) {
        packet = melszondru_packet(&answer, out, n, &length);
        WANT(packet == out + n * MELSZONDRU_PLACE && length == answer.lengths[n]);
        WANT(length == (packet[0] & 31) && packet[3] == 7 + n); /* to its paddle's link */
    }
    WANT(melszondru_packet(&answer, out, n, &length) == NULL && length == 0);
    WANT(melszondru_packet(&answer, out, (unsigned)-1, &length) == NULL && length == 0);
    return 0;
}

static int others(void)
{
    static const uint8_t asks[] = {0x07, 0x00, 0x01, 0x05, 0x09, 0x30, 0xBA};
    struct melszondru_answer answer = melszondru_receive(&one, asks, sizeof asks, out, sizeof out);
    WANT(answer.number == MELSZONDRU_DONE && answer.count == 1 && answer.mode == MELSZONDRU_NORMAL);
    WANT(answer.lengths[0] == 8 && answer.lengths[1] == 0);
    WANT(melszondru_receive(&one, asks, 6, out, sizeof out).number == MELSZONDRU_SHORT_PACKET);
    WANT(melszondru_tick(&one, out, sizeof out - 1).number == MELSZONDRU_SHORT_BUFFER);
    WANT(melszondru_press(&one, 4, out, sizeof out).number == MELSZONDRU_NO_CONTACT);
    WANT(melszondru_restart(&one, unwritten, sizeof unwritten).colour == MELSZONDRU_RED);
    melszondru_image(&one, again);
    image[0xFC] = 2;
    WANT(memcmp(image, again, sizeof image) == 0);
    return 0;
}

int main(void)
{
    int line;
    WANT(sizeof one == 286 && sizeof(struct melszondru_answer) == 8); /* as the header says, and README */
    WANT(MELSZONDRU_ROOM == 48);
    memcpy(image, "\x01\x05\x12\x34", 4);
    memcpy(image + 0x70, "\x07\x0E\x0E\x0E\x0E\x08\x00\x00\x00\x00", 10); /* the level by link 7, a Goto by link 8 */
    memcpy(image + 0x90, "\x22\x64\x03", 3);
    image[0x8D] = 0x13;
    WANT(melszondru_start(&one, image, 255).number == MELSZONDRU_WRONG_IMAGE);
    WANT(melszondru_start(&one, image, sizeof image).number == MELSZONDRU_DONE);
    line = two_packets();
    return line ? line : others();
}
