/* Runs every case of cases.h once, its name on a line before it, for bench/instructions to count between the two marks. */
#include <pouchrattle.h>
#include <stdio.h>
#include <string.h>

static uint8_t image[POUCH_IMAGE_LEN], first[POUCH_IMAGE_LEN], rom[512 * POUCH_ROM_BANK_LEN], vram[POUCH_VRAM_LEN_COLOUR], wram[POUCH_WRAM_LEN_COLOUR];
static uint8_t save[POUCH_SAVE_LEN_CODE_4], log_[POUCH_LOG_LEN_MAX], sound[POUCH_SOUND_LEN], colors[POUCH_COLORS_LEN], oam[POUCH_OAM_LEN], block[1024];
static uint8_t old[1000 * POUCH_OLD_RECORD_LEN];
static size_t rom_len, vram_len, wram_len, save_len;

/* what calls set */
static uint8_t byte, disabled, line, signal, mode;
static uint16_t value;
static uint32_t record, cycles;
static uint64_t number_64;
static int32_t delay, counter, aux, window;

#define IMAGE image, sizeof image
#define ROM rom, rom_len
#define VRAM vram, vram_len
#define WRAM wram, wram_len
#define SAVE save, save_len
#define LOG log_, sizeof log_
#define SOUND sound, sizeof sound
#define BUS IMAGE, ROM, VRAM, WRAM, SAVE, LOG, SOUND

#define NOTHING (void)0
#define READ(index) pouch_read_byte(IMAGE, ROM, VRAM, WRAM, SAVE, SOUND, index, &byte)
#define READ_WORD(index) pouch_read_word(IMAGE, ROM, VRAM, WRAM, SAVE, SOUND, index, &value)
#define READ_BLOCK(index, count) pouch_read_block(IMAGE, ROM, VRAM, WRAM, SAVE, SOUND, index, block, count)
#define WRITE(index, byte) pouch_write_byte(BUS, index, byte)
#define WRITE_WORD(index, word) pouch_write_word(BUS, index, word)
#define TIMER(cycles) pouch_update_timer(IMAGE, cycles)
#define HOST_NUMBERS pouch_host_numbers(IMAGE, &disabled, &line, &signal, &mode, &delay, &counter, &aux, &window)

/* From 0100 to 8000, 16 bytes and 16 more for each of `blocks`. */
static uint8_t gdma(uint8_t blocks)
{
    uint8_t number = WRITE(0xFF51, 0x01);
    number |= WRITE(0xFF52, 0x00);
    number |= WRITE(0xFF53, 0x00);
    number |= WRITE(0xFF54, 0x00);
    return number | WRITE(0xFF55, blocks);
}

static uint8_t button(void)
{
    uint8_t number = pouch_press(IMAGE, POUCH_A);
    number |= pouch_update_joypad(IMAGE);
    return number | pouch_release(IMAGE, POUCH_A);
}

static void records(unsigned count)
{
    for (unsigned at = 0; at < count; at++) {
        uint32_t bits = 1u << 31 | at << 14 | at % 251 << 6;
        for (unsigned i = 0; i < POUCH_RECORD_LEN; i++)
            log_[POUCH_RECORD_LEN * at + i] = (uint8_t)(bits >> (24 - 8 * i));
    }
}

static void old_records(unsigned count)
{
    for (unsigned at = 0; at < count; at++) {
        old[POUCH_OLD_RECORD_LEN * at] = (uint8_t)(0x80 | at >> 8);
        old[POUCH_OLD_RECORD_LEN * at + 1] = (uint8_t)at;
        old[POUCH_OLD_RECORD_LEN * at + 2] = (uint8_t)(at % 251);
    }
}

static uint8_t fresh_with(uint8_t kind, uint16_t banks, uint8_t code, bool colour, size_t its_save_len)
{
    rom_len = banks * (size_t)POUCH_ROM_BANK_LEN;
    vram_len = colour ? POUCH_VRAM_LEN_COLOUR : POUCH_VRAM_LEN_MONOCHROME;
    wram_len = colour ? POUCH_WRAM_LEN_COLOUR : POUCH_WRAM_LEN_MONOCHROME;
    save_len = its_save_len;
    return pouch_fresh(IMAGE, kind, banks, code, colour, ROM, VRAM, WRAM, SAVE, LOG, SOUND);
}

static void mbc2(void)
{
    fresh_with(POUCH_MBC2, 2, 0, false, POUCH_SAVE_LEN_MBC2);
    WRITE(0x0000, 0x0A);
}

static void mbc5(uint16_t banks)
{
    fresh_with(POUCH_MBC5, banks, 2, true, POUCH_SAVE_LEN_CODE_2);
    WRITE(0x0000, 0x0A);
}

/* 16 RAM banks, of which the last is selected. */
static void mbc5_code_4(uint16_t banks)
{
    fresh_with(POUCH_MBC5, banks, 4, true, POUCH_SAVE_LEN_CODE_4);
    WRITE(0x0000, 0x0A);
    WRITE(0x4000, 0x0F);
}

static void rom_only(void)
{
    fresh_with(POUCH_ROM_ONLY, 2, 0, false, POUCH_SAVE_LEN_CODE_0);
}

#define CASE(name, number, ready, call) \
    static void ready_##name(void)      \
    {                                   \
        ready;                          \
    }                                   \
    static uint8_t call_##name(void)    \
    {                                   \
        return call;                    \
    }
#include "cases.h"
#undef CASE

static void ready_call_alone(void)
{
}

static uint8_t call_call_alone(void)
{
    return POUCH_DONE;
}

#define CASE(name, number, ready, call) {#name, number, ready_##name, call_##name},
static const struct {
    const char *name;
    uint8_t number;
    void (*ready)(void);
    uint8_t (*call)(void);
} cases[] = {
    CASE(call_alone, POUCH_DONE, , )
#include "cases.h"
};

/* The marks: bench/instructions finds them by their names. */
__attribute__((noinline)) void count_from(void)
{
    __asm__ volatile("");
}

__attribute__((noinline)) void count_to(void)
{
    __asm__ volatile("");
}

int main(void)
{
    setvbuf(stdout, NULL, _IOLBF, BUFSIZ);
    uint8_t number = fresh_with(POUCH_MBC1, 2, 2, true, POUCH_SAVE_LEN_CODE_2);
    number |= WRITE(0x0000, 0x0A);
    number |= WRITE(0xFF07, 0x05);
    if (number != POUCH_DONE)
        return 1;
    memcpy(first, image, sizeof image);

    for (size_t at = 0; at < sizeof cases / sizeof *cases; at++) {
        memcpy(image, first, sizeof image);
        rom_len = 2 * POUCH_ROM_BANK_LEN;
        vram_len = sizeof vram;
        wram_len = sizeof wram;
        save_len = POUCH_SAVE_LEN_CODE_2;
        cases[at].ready();
        puts(cases[at].name);
        count_from();
        number = cases[at].call();
        count_to();
        if (number != cases[at].number) {
            printf("%s gave %d, not %d\n", cases[at].name, number, cases[at].number);
            return 1;
        }
    }
    return 0;
}
