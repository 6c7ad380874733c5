/* What the checks of the entries share: memories to lend, between guards; a fresh bus over them; calls by short names. */
#ifndef LENT_H
#define LENT_H

#include <pouchrattle.h>
#include <stdio.h>
#include <string.h>

/* What is lent, each between guards of one byte value, in one arena, so that one comparison sees every byte. */
struct lent {
    uint8_t *at;
    size_t len;
};

enum { GUARD_LEN = 64, LAST_GUARD_LEN = 65536, GUARD = 0xC5, FILL = 0x5A };

static uint8_t arena[512 * POUCH_ROM_BANK_LEN + 350000];
static size_t arena_len; /* up to the end of the last guard */
static struct lent image, rom, vram, wram, save, log_, sound;
static struct lent *const lent[] = {&rom, &vram, &wram, &save, &log_, &sound, &image};

/* A slice in C: the pointer, then the length. */
#define LEND(lent) (lent).at, (lent).len
#define READS LEND(image), LEND(rom), LEND(vram), LEND(wram), LEND(save), LEND(sound)
#define WRITES LEND(image), LEND(rom), LEND(vram), LEND(wram), LEND(save), LEND(log_), LEND(sound)

/* What a bus is made for, and the one that it is made for now. */
struct cartridge {
    uint8_t kind;
    uint16_t banks;
    uint8_t code;
};

static struct cartridge here;

enum { SHOWN = 50 }; /* failures that are told; the others are counted */

static unsigned checks, failures;

static inline void check(long got, long wanted, const char *what, const char *of, int line)
{
    checks++;
    if (got == wanted || failures++ >= SHOWN)
        return;
    fprintf(
        stderr, "line %d: %s%s is %ld (hex %lX), not %ld (hex %lX); mapper %d, N %d, code %d\n", line, of, what, got, (unsigned long)got, wanted,
        (unsigned long)wanted, here.kind, here.banks, here.code);
}

#define IS(got, wanted) check((long)(got), (long)(wanted), #got, "", __LINE__)

/* Lays the memories out for a cartridge. The first byte of each ROM bank is the bank's number, the second its ninth bit. */
static inline void lay_out(uint8_t kind, uint16_t banks, uint8_t code, bool colour, size_t log_len)
{
    const size_t saves[] = {POUCH_SAVE_LEN_CODE_0, 0, POUCH_SAVE_LEN_CODE_2, POUCH_SAVE_LEN_CODE_3, POUCH_SAVE_LEN_CODE_4};
    here = (struct cartridge){kind, banks, code};
    rom.len = (size_t)banks * POUCH_ROM_BANK_LEN;
    vram.len = colour ? POUCH_VRAM_LEN_COLOUR : POUCH_VRAM_LEN_MONOCHROME;
    wram.len = colour ? POUCH_WRAM_LEN_COLOUR : POUCH_WRAM_LEN_MONOCHROME;
    save.len = kind == POUCH_MBC2 ? POUCH_SAVE_LEN_MBC2 : saves[code];
    log_.len = log_len;
    sound.len = POUCH_SOUND_LEN;
    image.len = POUCH_IMAGE_LEN;
    uint8_t *at = arena;
    for (int i = 0; i < 7; i++) {
        memset(at, GUARD, GUARD_LEN);
        at += GUARD_LEN;
        lent[i]->at = at;
        memset(at, FILL, lent[i]->len);
        at += lent[i]->len;
    }
    memset(at, GUARD, LAST_GUARD_LEN);
    arena_len = (size_t)(at - arena) + LAST_GUARD_LEN;
    for (uint16_t bank = 0; bank < banks; bank++) {
        rom.at[(size_t)bank * POUCH_ROM_BANK_LEN] = (uint8_t)bank;
        rom.at[(size_t)bank * POUCH_ROM_BANK_LEN + 1] = (uint8_t)(bank >> 8);
    }
}

static inline uint8_t fresh(uint8_t kind, uint16_t banks, uint8_t code, bool colour)
{
    return pouch_fresh(LEND(image), kind, banks, code, colour, LEND(rom), LEND(vram), LEND(wram), LEND(save), LEND(log_), LEND(sound));
}

static inline void start(uint8_t kind, uint16_t banks, uint8_t code, bool colour, size_t log_len)
{
    lay_out(kind, banks, code, colour, log_len);
    IS(fresh(kind, banks, code, colour), POUCH_DONE);
}

/* Cartridges that show the first 8,192 bytes of their save at A000 once 0000 is given 0A. What a list of calls does with one of them it does with each. */
static const struct cartridge with_save[] = {{POUCH_MBC1, 2, 2}, {POUCH_MBC5, 2, 2}, {POUCH_MBC5, 64, 2}, {POUCH_MBC5, 512, 2}, {POUCH_MBC5, 8, 4}};
static const struct cartridge *one = with_save;

static inline void start_one(bool colour)
{
    start(one->kind, one->banks, one->code, colour, 4095);
}

static inline bool all_are(const uint8_t *bytes, size_t len, uint8_t byte)
{
    return len == 0 || (bytes[0] == byte && memcmp(bytes, bytes + 1, len - 1) == 0);
}

/* Fields of the image: the mapper's part, by the bit that each starts at, most significant first */

enum {
    MAPPER = 5283, LOG_BANKS = 5285, CODE = 5289, ROM_BANK = 5292, RAM_BANK = 5301, BANKING = 5305, ENABLED = 5306, HIGH = 5307, LOG_USE = 5309, ZEROS = 5325
};

/* and how many bits those have that are named more than once */
enum { CODE_WIDTH = 3, RAM_BANK_WIDTH = 4, ZEROS_WIDTH = 3 };

static inline uint32_t field(unsigned at, unsigned width)
{
    uint32_t bits = 0;
    for (; width > 0; width--, at++)
        bits = bits << 1 | (image.at[at / 8] >> (7 - at % 8) & 1u);
    return bits;
}

static inline void put_field(uint8_t *bytes, unsigned at, unsigned width, uint32_t to)
{
    for (; width > 0; width--, at++) {
        const uint8_t bit = (uint8_t)(0x80 >> at % 8);
        bytes[at / 8] = (uint8_t)(to >> (width - 1) & 1 ? bytes[at / 8] | bit : bytes[at / 8] & ~bit);
    }
}

/* The calls by short names, with the memories as they stand */

static uint16_t value;

static inline uint8_t rd(uint16_t index)
{
    uint8_t byte = 0xEE;
    IS(pouch_read_byte(READS, index, &byte), POUCH_DONE);
    return byte;
}

static inline uint8_t wr(uint16_t index, uint8_t byte)
{
    return pouch_write_byte(WRITES, index, byte);
}

static inline uint16_t ask(uint8_t (*question)(const uint8_t *, size_t, uint16_t *))
{
    value = 0xEEEE;
    IS(question(LEND(image), &value), POUCH_DONE);
    return value;
}

/* The last line of a program of checks, and its status. */
static inline int report(const char *program)
{
    printf("%s: %u checks, %u failed\n", program, checks, failures);
    return failures == 0 ? 0 : 1;
}

#endif
