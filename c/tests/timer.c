/* The timer's update beside the Rust's. Reads lines of its answers on standard input (oracle/README.md, letter T; those of other letters are passed over), makes
 * each update on an image, and compares all that it leaves there. Prints "T N answers, M differ"; a line of no known form is counted apart, and fails too. */
#include "lent.h"

/* What a line gives and wants: five registers as stored, then the remainders, one byte and two; behind what it gives the cycles, four bytes. */
enum { TIMER_LEN = 8, GIVEN_LEN = 12, LINE_LEN = 2 + 2 * GIVEN_LEN + 1 + 2 * TIMER_LEN + 1 };

static const uint16_t registers[] = {0xFF04, 0xFF05, 0xFF06, 0xFF07, 0xFF0F};

enum { REGISTERS = sizeof registers / sizeof *registers };

/* Where the image has the remainders: the bit that each starts at, by document 01's layout. */
enum { DIV_CYCLES = 5105, TIMA_CYCLES = 5113, DIV_CYCLES_WIDTH = 8, TIMA_CYCLES_WIDTH = 10 };

/* That they are there, by calls alone. */
static void check_places(void)
{
    start(POUCH_ROM_ONLY, 2, 0, false, 0);
    IS(pouch_store(LEND(image), 0xFF07, 0x04), POUCH_DONE);
    IS(pouch_update_timer(LEND(image), 1000), POUCH_DONE);
    IS(field(DIV_CYCLES, DIV_CYCLES_WIDTH), 1000 % 256);
    IS(field(TIMA_CYCLES, TIMA_CYCLES_WIDTH), 1000);
}

/* Fresh images to begin with, line by line in turn: what stands beside the remainders (LCD mode, HDMA source) is 0 in the one, 1 in the other. And the one has a
 * mapper that the entry tests in full, the other one of the commonest, for which a shorter test is enough. */
static uint8_t fresh_images[2][POUCH_IMAGE_LEN];

static void make_fresh_images(void)
{
    for (unsigned i = 0; i < 2; i++) {
        const uint8_t bits = i == 0 ? 0x00 : 0xFF;
        start(i == 0 ? POUCH_ROM_ONLY : POUCH_MBC1, 2, 0, true, 0);
        IS(pouch_set_lcd_status_mode(LEND(image), bits), POUCH_DONE);
        IS(wr(0xFF51, bits), POUCH_DONE);
        IS(field(DIV_CYCLES - 1, 1), i);
        IS(field(TIMA_CYCLES + TIMA_CYCLES_WIDTH, 1), i);
        memcpy(fresh_images[i], image.at, POUCH_IMAGE_LEN);
    }
}

static uint16_t word(const uint8_t *bytes)
{
    return (uint16_t)(bytes[0] << 8 | bytes[1]);
}

/* A fresh image with a line's timer. */
static void put_timer(const uint8_t *fresh_image, const uint8_t *timer)
{
    memcpy(image.at, fresh_image, POUCH_IMAGE_LEN);
    for (unsigned i = 0; i < REGISTERS; i++)
        IS(pouch_store(LEND(image), registers[i], timer[i]), POUCH_DONE);
    put_field(image.at, DIV_CYCLES, DIV_CYCLES_WIDTH, timer[5]);
    put_field(image.at, TIMA_CYCLES, TIMA_CYCLES_WIDTH, word(timer + 6));
}

static bool has_timer(const uint8_t *timer)
{
    bool has = field(DIV_CYCLES, DIV_CYCLES_WIDTH) == timer[5] && field(TIMA_CYCLES, TIMA_CYCLES_WIDTH) == word(timer + 6);
    for (unsigned i = 0; i < REGISTERS; i++)
        has = pouch_load(LEND(image), registers[i], &value) == POUCH_DONE && value == timer[i] && has;
    return has;
}

/* Whether an update leaves what is wanted, and no other byte changed; and whether pouch_cycles_to_overflow told if it would request Timer, which also takes
 * FF0F's upper three bits away. */
static bool updates(const uint8_t *fresh_image, const uint8_t *given, const uint8_t *wanted)
{
    uint8_t after[POUCH_IMAGE_LEN];
    const uint32_t cycles = (uint32_t)word(given + 8) << 16 | word(given + 10);
    uint32_t left = 0;
    put_timer(fresh_image, wanted);
    memcpy(after, image.at, sizeof after);
    put_timer(fresh_image, given);
    if (!has_timer(given) || pouch_cycles_to_overflow(LEND(image), &left) != POUCH_DONE)
        return false;
    const uint8_t flags = left <= cycles ? (given[4] & 0x1F) | 1 << POUCH_TIMER : given[4];
    return pouch_update_timer(LEND(image), cycles) == POUCH_DONE && has_timer(wanted) && memcmp(image.at, after, sizeof after) == 0 && flags == wanted[4];
}

static bool digits(const char *text, uint8_t *bytes, size_t len)
{
    const char *const all = "0123456789ABCDEF";
    for (size_t i = 0; i < 2 * len; i++) {
        const char *const digit = text[i] == '\0' ? NULL : strchr(all, text[i]);
        if (digit == NULL)
            return false;
        bytes[i / 2] = (uint8_t)(bytes[i / 2] << 4 | (digit - all));
    }
    return true;
}

static bool parse(const char *line, uint8_t *given, uint8_t *wanted)
{
    const char *const behind = line + 2 + 2 * GIVEN_LEN;
    return strlen(line) == LINE_LEN && line[1] == ' ' && *behind == ' ' && line[LINE_LEN - 1] == '\n' && digits(line + 2, given, GIVEN_LEN) &&
           digits(behind + 1, wanted, TIMER_LEN);
}

int main(void)
{
    char line[256];
    unsigned long answers = 0, differ = 0, unknown = 0;
    check_places();
    make_fresh_images();
    while (fgets(line, sizeof line, stdin) != NULL) {
        uint8_t given[GIVEN_LEN] = {0}, wanted[TIMER_LEN] = {0};
        if (line[0] >= 'A' && line[0] <= 'Z' && line[0] != 'T' && strchr(line, '\n') != NULL)
            continue;
        if (!parse(line, given, wanted)) {
            unknown++;
            continue;
        }
        if (!updates(fresh_images[answers++ % 2], given, wanted) && differ++ < SHOWN)
            fprintf(stderr, "differs: %s", line);
    }
    IS(all_are(image.at - GUARD_LEN, GUARD_LEN, GUARD) && all_are(image.at + image.len, LAST_GUARD_LEN, GUARD), true);
    printf("T %lu answers, %lu differ\n", answers, differ);
    if (unknown != 0)
        printf("? %lu lines are of no known form\n", unknown);
    return answers != 0 && differ == 0 && unknown == 0 && failures == 0 ? 0 : 1;
}
