/* Which images are taken. The mapper's part of the image in every number that it can hold, 67 million for its 26 bits: taken where the state's ranges hold, else
 * refused by 3, in each way in which a call tests an image. And what stands behind it: the log's use, and three bits of 0. */
#include "lent.h"

/* Mapper, log2 N, RAM code, ROM bank, RAM bank, mode, enabled, high bits: these widths, side by side. */
enum { TAIL_WIDTH = 2 + 4 + CODE_WIDTH + 9 + RAM_BANK_WIDTH + 1 + 1 + 2 };

struct tail {
    unsigned kind, log, code, rom_bank, ram_bank, mode, enabled, high;
};

static struct tail tail_of(uint32_t n)
{
    return (struct tail){n >> 24, n >> 20 & 15, n >> 17 & 7, n >> 8 & 511, n >> 4 & 15, n >> 3 & 1, n >> 2 & 1, n & 3};
}

/* The four bytes of the image that they stand in, among other bits: put_field would do, but it is done so often. */
enum { TAIL_AT = MAPPER / 8, BEHIND = 32 - MAPPER % 8 - TAIL_WIDTH };

static uint32_t four_bytes(void)
{
    const uint8_t *at = image.at + TAIL_AT;
    return (uint32_t)at[0] << 24 | (uint32_t)at[1] << 16 | (uint32_t)at[2] << 8 | at[3];
}

static void put_four_bytes(uint32_t to)
{
    for (unsigned i = 0; i < 4; i++)
        image.at[TAIL_AT + i] = (uint8_t)(to >> (24 - 8 * i));
}

/* The state's ranges. */
static bool holds(struct tail t)
{
    const unsigned most[] = {1, 7, 4, 9};
    if (t.log == 0 || t.log > most[t.kind] || t.code == 1 || t.code > 4 || (t.code == 4 && t.kind != POUCH_MBC5) || t.rom_bank >= 1u << t.log)
        return false;
    switch (t.kind) {
    case POUCH_ROM_ONLY: return t.rom_bank == 1 && t.ram_bank == 0 && t.mode == 0 && t.enabled == 0 && t.high == 0;
    case POUCH_MBC1: return t.ram_bank < 4 && (t.code == 3 || (t.ram_bank == 0 && t.mode == 0 && (t.code == 2 || t.enabled == 0)));
    case POUCH_MBC2: return t.code == 0 && t.ram_bank == 0 && t.mode == 0 && t.high == 0;
    default: return t.mode == 0 && t.high == 0 && t.ram_bank < (t.code == 4 ? 16 : t.code == 3 ? 4 : 1) && (t.code != 0 || t.enabled == 0);
    }
}

/* Lends what the tail asks for, where some cartridge does. */
static void lend_for(struct tail t)
{
    const size_t saves[] = {POUCH_SAVE_LEN_CODE_0, 0, POUCH_SAVE_LEN_CODE_2, POUCH_SAVE_LEN_CODE_3, POUCH_SAVE_LEN_CODE_4, 0, 0, 0};
    rom.len = t.log > 9 ? 0 : (size_t)POUCH_ROM_BANK_LEN << t.log;
    save.len = t.kind == POUCH_MBC2 ? POUCH_SAVE_LEN_MBC2 : saves[t.code];
}

/* The calls that test the image each in another way: by itself, in two parts, and with what is lent beside it. None changes anything here. */
static bool all_give(uint8_t number)
{
    uint8_t byte = 0;
    uint16_t word = 0;
    uint32_t answer = 0;
    return pouch_log_used(LEND(image), &word) == number && pouch_get_interrupts(LEND(image), &word) == number &&
           pouch_set_scan_line(LEND(image), 144) == number && pouch_mapper_write(LEND(image), 0xA000, 0, &answer) == number &&
           pouch_mapper_read(LEND(image), LEND(rom), LEND(save), 0x0000, &byte) == number && pouch_read_byte(READS, 0xC000, &byte) == number &&
           pouch_read_word(READS, 0xC000, &word) == number && pouch_write_byte(WRITES, 0xC000, 0) == number &&
           pouch_write_word(WRITES, 0xC000, 0) == number;
}

static void check_tails(void)
{
    uint8_t was[POUCH_IMAGE_LEN];
    unsigned wrong = 0, other_bank = 0, changed = 0, taken[4] = {0};
    start(POUCH_MBC5, 512, 4, true, 300);
    memcpy(was, image.at, sizeof was);
    const uint32_t others = four_bytes() & ~(((1u << TAIL_WIDTH) - 1) << BEHIND);
    for (uint32_t n = 0; n < 1u << TAIL_WIDTH; n++) {
        const struct tail t = tail_of(n);
        uint16_t shown = 0;
        put_four_bytes(others | n << BEHIND);
        lend_for(t);
        if (!holds(t)) {
            wrong += !all_give(POUCH_OUT_OF_RANGE);
            changed += four_bytes() != (others | n << BEHIND);
            continue;
        }
        taken[t.kind]++;
        wrong += !all_give(POUCH_DONE) || pouch_read_word(READS, 0x4000, &shown) != POUCH_DONE;
        other_bank += shown != t.rom_bank;
    }
    memcpy(was + TAIL_AT, image.at + TAIL_AT, 4);
    changed += memcmp(was, image.at, sizeof was) != 0; /* what one call changes beside them no other puts back */
    IS(wrong, 0);
    IS(other_bank, 0);
    IS(changed, 0);
    IS(taken[POUCH_ROM_ONLY], 3);                         /* RAM codes */
    IS(taken[POUCH_MBC1], 254 * 4 * (1 + 2 + 4 * 2 * 2)); /* 2 + 4 + .. + 128 ROM banks, four of the high bits; by code */
    IS(taken[POUCH_MBC2], 30 * 2);
    IS(taken[POUCH_MBC5], 1022 * (1 + 2 + 4 * 2 + 16 * 2));
}

static void check_end(void)
{
    for (size_t k = 0; k < sizeof with_save / sizeof *with_save; k++) {
        one = &with_save[k];
        start_one(true);
        uint8_t was[POUCH_IMAGE_LEN];
        memcpy(was, image.at, sizeof was);
        for (unsigned bits = 1; bits < 1u << ZEROS_WIDTH; bits++) {
            put_field(image.at, ZEROS, ZEROS_WIDTH, bits);
            IS(all_give(POUCH_OUT_OF_RANGE), true);
        }
        memcpy(image.at, was, sizeof was);
        IS(all_give(POUCH_DONE), true);
        for (unsigned used = 0; used < 4095; used++) {
            put_field(image.at, LOG_USE, 16, used);
            IS(all_give(used % POUCH_RECORD_LEN == 0 ? POUCH_DONE : POUCH_OUT_OF_RANGE), true);
        }
    }
}

int main(void)
{
    check_tails();
    check_end();
    return report("images");
}
