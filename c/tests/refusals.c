/* What refuses each entry of pouchrattle.h: which numbers, in which order, and that a refused call gives 0 and changes no byte: neither of what is lent nor
 * of the guards before and behind it. */
#include "refused.h"

enum { ROM = 1, VRAM = 2, WRAM = 4, SAVE = 8, LOG = 16, SOUND = 32, READ = ROM | VRAM | WRAM | SAVE | SOUND, WRITE = READ | LOG }; /* bits of lent[] */

/* What refuses all entries alike: each is called with arguments that are in range */

static uint8_t try_read_byte(void)
{
    uint8_t byte = 0xEE;
    uint8_t number = pouch_read_byte(READS, 0x0000, &byte);
    value = byte;
    return number;
}

static uint8_t try_read_cgb_lcd_ram(void)
{
    uint8_t byte = 0xEE;
    uint8_t number = pouch_read_cgb_lcd_ram(LEND(image), LEND(vram), 0x8000, 0, &byte);
    value = byte;
    return number;
}

static uint8_t try_mapper_read(void)
{
    uint8_t byte = 0xEE;
    uint8_t number = pouch_mapper_read(LEND(image), LEND(rom), LEND(save), 0x0000, &byte);
    value = byte;
    return number;
}

static uint8_t try_mapper_write(void)
{
    uint32_t answer = 0xEEEEEEEE;
    uint8_t number = pouch_mapper_write(LEND(image), 0x2000, 1, &answer);
    value = answer == 0 ? 0 : 0xEEEE;
    return number;
}

/* all eight numbers are set to 0 */
static uint8_t try_host_numbers(void)
{
    uint8_t bytes[] = {0xEE, 0xEE, 0xEE, 0xEE};
    int32_t counters[] = {-1, -1, -1, -1};
    uint8_t number = pouch_host_numbers(
        LEND(image), &bytes[0], &bytes[1], &bytes[2], &bytes[3], &counters[0], &counters[1], &counters[2], &counters[3]);
    value = 0;
    for (int i = 0; i < 4; i++)
        value |= bytes[i] != 0 || counters[i] != 0;
    return number;
}

/* the lent bytes stay */
static uint8_t try_colors(void)
{
    uint8_t colors[POUCH_COLORS_LEN];
    memset(colors, FILL, sizeof colors);
    uint8_t number = pouch_colors(LEND(image), colors, sizeof colors);
    value = !all_are(colors, sizeof colors, FILL);
    return number;
}

static uint8_t try_oam(void)
{
    uint8_t oam[POUCH_OAM_LEN];
    memset(oam, FILL, sizeof oam);
    uint8_t number = pouch_oam(LEND(image), oam, sizeof oam);
    value = !all_are(oam, sizeof oam, FILL);
    return number;
}

static uint8_t try_read_block(void)
{
    uint8_t out[16];
    memset(out, FILL, sizeof out);
    uint8_t number = pouch_read_block(READS, 0xC000, out, sizeof out);
    value = !all_are(out, sizeof out, FILL);
    return number;
}

static uint8_t try_cycles_to_overflow(void)
{
    uint32_t cycles = 0xEEEEEEEE;
    uint8_t number = pouch_cycles_to_overflow(LEND(image), &cycles);
    value = cycles != 0;
    return number;
}

#define ASKS(name, ...) static uint8_t try_##name(void) { value = 0xEEEE; return pouch_##name(__VA_ARGS__, &value); }
#define DOES(name, ...) static uint8_t try_##name(void) { value = 0; return pouch_##name(__VA_ARGS__); }
ASKS(read_word, READS, 0x0000)
ASKS(do_hdma, WRITES)
ASKS(load, LEND(image), 0xFF80)
ASKS(are_action_keys_enabled, LEND(image))
ASKS(are_direction_keys_enabled, LEND(image))
ASKS(get_interrupts, LEND(image))
ASKS(is_hdma_enabled, LEND(image))
ASKS(log_used, LEND(image))
DOES(write_byte, WRITES, 0xC000, 1)
DOES(write_word, WRITES, 0xC000, 1)
DOES(do_dma_transfer, WRITES, 0xC0)
DOES(store, LEND(image), 0xFF80, 1)
DOES(set_joypad_state, LEND(image), 1)
DOES(do_lcd_control_write, LEND(image), 1)
DOES(do_lcd_status_write, LEND(image), 1)
DOES(do_scanline_write, LEND(image), 1)
DOES(do_lyc_write, LEND(image), 1)
DOES(compare_ly_to_lyc, LEND(image))
DOES(enable_screen, LEND(image))
DOES(disable_screen, LEND(image))
DOES(reset_window_line, LEND(image))
DOES(request_interrupt, LEND(image), POUCH_TIMER)
DOES(remove_interrupt, LEND(image), POUCH_TIMER)
DOES(update_timer, LEND(image), 4)
DOES(press, LEND(image), POUCH_A)
DOES(release, LEND(image), POUCH_A)
DOES(update_joypad, LEND(image))
DOES(clear_log, LEND(image))
DOES(set_log_used, LEND(image), POUCH_RECORD_LEN)
DOES(host, LEND(image), true, 1, 2, 3, 4, 5, 6, 7)
DOES(set_screen_disabled, LEND(image), true)
DOES(set_scan_line, LEND(image), 1)
DOES(set_irq48_signal, LEND(image), 2)
DOES(set_lcd_status_mode, LEND(image), 3)
DOES(set_screen_enable_delay_cycles, LEND(image), 4)
DOES(set_cycles_counter, LEND(image), 5)
DOES(set_aux_cycles_counter, LEND(image), 6)
DOES(set_window_line, LEND(image), 7)

static const struct entry {
    const char *name;
    uint8_t (*call)(void);
    int lends;
} entries[] = {
#define ENTRY(name, lends) {#name ": ", try_##name, lends}
    ENTRY(read_byte, READ), ENTRY(read_word, READ), ENTRY(read_block, READ), ENTRY(read_cgb_lcd_ram, VRAM), ENTRY(write_byte, WRITE), ENTRY(write_word, WRITE),
    ENTRY(do_dma_transfer, WRITE), ENTRY(do_hdma, WRITE), ENTRY(load, 0), ENTRY(store, 0), ENTRY(set_joypad_state, 0),
    ENTRY(are_action_keys_enabled, 0), ENTRY(are_direction_keys_enabled, 0), ENTRY(do_lcd_control_write, 0), ENTRY(do_lcd_status_write, 0),
    ENTRY(do_scanline_write, 0), ENTRY(do_lyc_write, 0), ENTRY(compare_ly_to_lyc, 0), ENTRY(enable_screen, 0), ENTRY(disable_screen, 0),
    ENTRY(reset_window_line, 0), ENTRY(get_interrupts, 0), ENTRY(request_interrupt, 0), ENTRY(remove_interrupt, 0), ENTRY(is_hdma_enabled, 0),
    ENTRY(update_timer, 0), ENTRY(cycles_to_overflow, 0), ENTRY(press, 0), ENTRY(release, 0), ENTRY(update_joypad, 0), ENTRY(clear_log, 0), ENTRY(log_used, 0), ENTRY(host, 0),
    ENTRY(mapper_read, ROM | SAVE), ENTRY(mapper_write, 0), ENTRY(host_numbers, 0), ENTRY(colors, 0), ENTRY(set_log_used, 0),
    ENTRY(oam, 0), ENTRY(set_screen_disabled, 0), ENTRY(set_scan_line, 0), ENTRY(set_irq48_signal, 0), ENTRY(set_lcd_status_mode, 0),
    ENTRY(set_screen_enable_delay_cycles, 0), ENTRY(set_cycles_counter, 0), ENTRY(set_aux_cycles_counter, 0), ENTRY(set_window_line, 0),
};

/* The entry is refused by the number, gives 0 and changes nothing. */
static void refuses(const struct entry *entry, uint8_t number, int line)
{
    memcpy(before, arena, arena_len);
    check(entry->call(), number, "the number", entry->name, line);
    check(value, 0, "the value", entry->name, line);
    check(memcmp(before, arena, arena_len), 0, "what is changed", entry->name, line);
}

#define REFUSES(entry, number) refuses(entry, number, __LINE__)

static void check_entry(const struct entry *entry)
{
    /* done, within bounds, and what is lent for reading is kept */
    start_one(false);
    memcpy(before, arena, arena_len);
    check(entry->call(), POUCH_DONE, "the number", entry->name, __LINE__);
    for (int i = 0; i < 7; i++)
        if (lent[i] == &image || lent[i] == &vram || lent[i] == &wram || lent[i] == &save || lent[i] == &log_)
            memcpy(before + (lent[i]->at - arena), lent[i]->at, lent[i]->len);
    check(memcmp(before, arena, arena_len), 0, "what is changed beside", entry->name, __LINE__);

    /* the image's length, before anything else is looked at */
    start_one(false);
    image.len = POUCH_IMAGE_LEN - 1;
    REFUSES(entry, POUCH_WRONG_LENGTH);
    image.len = POUCH_IMAGE_LEN + 1;
    REFUSES(entry, POUCH_WRONG_LENGTH);
    image.len = 0;
    REFUSES(entry, POUCH_WRONG_LENGTH);

    /* the image's contents: a last bit of 1, then all zero; also with wrong lengths beside */
    start_one(false);
    image.at[POUCH_IMAGE_LEN - 1] |= 1;
    REFUSES(entry, POUCH_OUT_OF_RANGE);
    memset(image.at, 0, image.len);
    REFUSES(entry, POUCH_OUT_OF_RANGE);
    for (int i = 0; i < 6; i++)
        lent[i]->len--;
    REFUSES(entry, POUCH_OUT_OF_RANGE);

    /* each other length that is lent, a byte short and a byte long; the log has any length up to 65,535 */
    for (int i = 0; i < 6; i++) {
        if (!(entry->lends & 1 << i))
            continue;
        start_one(false);
        if (lent[i] != &log_) {
            lent[i]->len--;
            REFUSES(entry, POUCH_WRONG_LENGTH);
            lent[i]->len += 2;
            REFUSES(entry, POUCH_WRONG_LENGTH);
            lent[i]->len = 0;
            REFUSES(entry, POUCH_WRONG_LENGTH);
            continue;
        }
        start(one->kind, one->banks, one->code, false, POUCH_LOG_LEN_MAX);
        check(entry->call(), POUCH_DONE, "the number", entry->name, __LINE__);
        log_.len++;
        REFUSES(entry, POUCH_WRONG_LENGTH);
        log_.len = 0;
        check(entry->call(), POUCH_DONE, "the number", entry->name, __LINE__);
    }

    /* a log's use beyond the lent log is out of range, where a log is lent */
    start_one(false);
    IS(wr(0x0000, 0x0A), POUCH_DONE);
    IS(wr(0xA000, 1), POUCH_DONE);
    log_.len = POUCH_RECORD_LEN - 1;
    if (entry->lends & LOG)
        REFUSES(entry, POUCH_OUT_OF_RANGE);
    else
        check(entry->call(), POUCH_DONE, "the number", entry->name, __LINE__);
}

/* Whether the documents have such a cartridge. */
static bool is_described(uint8_t kind, uint16_t banks, uint8_t code)
{
    const uint16_t most[] = {2, 128, 16, 512};
    if (kind > POUCH_MBC5 || banks < 2 || banks > most[kind] || (banks & (banks - 1)) != 0)
        return false;
    return code == 0 || (kind != POUCH_MBC2 && (code == 2 || code == 3)) || (kind == POUCH_MBC5 && code == 4);
}

static void check_fresh(void)
{
    /* what it zeroes, and what it keeps */
    const struct cartridge largest[] = {{POUCH_MBC1, 128, 3}, {POUCH_MBC5, 512, 3}, {POUCH_MBC5, 512, 4}};
    for (int i = 0; i < 6; i++) {
        const struct cartridge *c = &largest[i / 2];
        lay_out(c->kind, c->banks, c->code, i % 2, 100);
        memcpy(before, arena, arena_len);
        IS(fresh(c->kind, c->banks, c->code, i % 2), POUCH_DONE);
        IS(all_are(vram.at, vram.len, 0) && all_are(wram.at, wram.len, 0), true);
        memcpy(before + (image.at - arena), image.at, image.len);
        memset(before + (vram.at - arena), 0, vram.len);
        memset(before + (wram.at - arena), 0, wram.len);
        IS(memcmp(before, arena, arena_len), 0);
        IS(ask(pouch_log_used), 0);
    }
    /* each description that is in range */
    unsigned taken = 0;
    for (uint8_t kind = 0; kind < 5; kind++)
        for (uint16_t banks = 2; banks <= 512; banks = (uint16_t)(banks * 2))
            for (uint8_t code = 0; code < 5; code++)
                if (is_described(kind, banks, code)) {
                    start(kind, banks, code, banks % 3 == 1, 0);
                    taken++;
                }
    IS(taken, 3 * (1 + 7 + 9) + 4 + 9);
    /* any description, with a length that is wrong: 3 before 4 */
    const uint8_t kinds[] = {0, 1, 2, 3, 4, 5, 255}, codes[] = {0, 1, 2, 3, 4, 5, 8, 255};
    unsigned wrong = 0;
    start_one(false);
    sound.len--;
    memcpy(before, arena, arena_len);
    for (unsigned k = 0; k < sizeof kinds; k++)
        for (unsigned c = 0; c < sizeof codes; c++)
            for (unsigned n = 0; n < 65536; n++)
                wrong += fresh(kinds[k], (uint16_t)n, codes[c], false) !=
                         (is_described(kinds[k], (uint16_t)n, codes[c]) ? POUCH_WRONG_LENGTH : POUCH_OUT_OF_RANGE);
    IS(wrong, 0);
    IS(memcmp(before, arena, arena_len), 0);
    /* the image's length, then the description, then the lengths */
    for (size_t k = 0; k < sizeof with_save / sizeof *with_save; k++) {
        one = &with_save[k];
        start_one(false);
        image.len = POUCH_IMAGE_LEN - 1;
        REFUSED(fresh(4, 3, 1, false), POUCH_WRONG_LENGTH);
        image.len = POUCH_IMAGE_LEN;
        for (int i = 0; i < 6; i++) { /* 4, and 3 before it */
            size_t len = lent[i]->len;
            lent[i]->len = lent[i] == &log_ ? 65536 : len - 1;
            REFUSED(fresh(one->kind, one->banks, one->code, false), POUCH_WRONG_LENGTH);
            REFUSED(fresh(one->kind, 3, one->code, false), POUCH_OUT_OF_RANGE);
            lent[i]->len = len;
        }
        REFUSED(fresh(4, one->banks, 2, false), POUCH_OUT_OF_RANGE);
        REFUSED(fresh(one->kind, one->banks, one->code, true), POUCH_WRONG_LENGTH);
        REFUSED(fresh(one->kind, one->banks, 0, false), POUCH_WRONG_LENGTH);
        REFUSED(fresh(one->kind, one->banks, 3, false), POUCH_WRONG_LENGTH);
        if (one->code != 4)
            REFUSED(fresh(one->kind, one->banks, 4, false), one->kind == POUCH_MBC5 ? POUCH_WRONG_LENGTH : POUCH_OUT_OF_RANGE);
        REFUSED(fresh(one->kind, one->banks == 2 ? 4 : 2, one->code, false), POUCH_WRONG_LENGTH);
    }
}

/* A save of another cartridge's length: 4, in each way in which a call tests the lengths. */
static void check_saves(void)
{
    const size_t lens[] = {POUCH_SAVE_LEN_CODE_0, POUCH_SAVE_LEN_MBC2, POUCH_SAVE_LEN_CODE_2, POUCH_SAVE_LEN_CODE_3, POUCH_SAVE_LEN_CODE_4};
    const uint16_t sizes[] = {2, 128, 512};
    unsigned tried = 0;
    for (uint8_t kind = POUCH_ROM_ONLY; kind <= POUCH_MBC5; kind++)
        for (uint8_t code = 0; code < 5; code++)
            for (size_t n = 0; n < 3; n++) {
                if (!is_described(kind, sizes[n], code))
                    continue;
                start(kind, sizes[n], code, false, 100);
                IS(wr(0x0000, 0x0A), POUCH_DONE);
                const size_t own = save.len;
                for (size_t i = 0; i < sizeof lens / sizeof *lens; i++) {
                    if (lens[i] == own)
                        continue;
                    save.len = lens[i];
                    tried++;
                    uint8_t byte = 0xEE;
                    uint16_t word = 0xEEEE;
                    memcpy(before, arena, arena_len);
                    IS(pouch_read_byte(READS, 0xC000, &byte), POUCH_WRONG_LENGTH);
                    IS(byte, 0);
                    byte = 0xEE;
                    IS(pouch_read_byte(READS, 0xA000, &byte), POUCH_WRONG_LENGTH);
                    IS(byte, 0);
                    IS(pouch_read_word(READS, 0xA000, &word), POUCH_WRONG_LENGTH);
                    IS(word, 0);
                    byte = 0xEE;
                    IS(pouch_mapper_read(LEND(image), LEND(rom), LEND(save), 0xA000, &byte), POUCH_WRONG_LENGTH);
                    IS(byte, 0);
                    IS(pouch_read_block(READS, 0xA000, wram.at, 1), POUCH_WRONG_LENGTH);
                    IS(wr(0xC000, 1), POUCH_WRONG_LENGTH);
                    IS(wr(0xA000, 1), POUCH_WRONG_LENGTH);
                    IS(pouch_write_word(WRITES, 0xA000, 1), POUCH_WRONG_LENGTH);
                    IS(pouch_do_dma_transfer(WRITES, 0xA0), POUCH_WRONG_LENGTH);
                    IS(memcmp(before, arena, arena_len), 0);
                }
            }
    IS(tried, 4 * (3 + 3 * 2 + 1 + 4 * 3)); /* RomOnly, Mbc1, Mbc2, Mbc5: codes by sizes */
}

static void check_numbers(void)
{
    uint8_t byte = 0xEE;
    /* 1: an index of the write in FF10..FF3F; the write changes nothing */
    start_one(false);
    IS(wr(0xFF0F, 0), POUCH_DONE);
    IS(wr(0xFF40, 0), POUCH_DONE);
    REFUSED(wr(0xFF10, 0x12), POUCH_OWED);
    REFUSED(wr(0xFF3F, 0x12), POUCH_OWED);
    IS(rd(0xFF10), FILL);
    IS(pouch_write_word(WRITES, 0xFF0F, 0), POUCH_OWED);
    IS(pouch_write_word(WRITES, 0xFF3F, 0), POUCH_OWED);
    IS(pouch_write_word(WRITES, 0xFF40, 0), POUCH_DONE);

    /* 2: by index alone, RAM off too; 4 before it. A record has four bytes */
    start(one->kind, one->banks, one->code, false, 3);
    REFUSED(wr(0xA000, 1), POUCH_NO_ROOM);
    REFUSED(wr(0xBFFF, 1), POUCH_NO_ROOM);
    IS(wr(0x9FFF, 1), POUCH_DONE);
    IS(wr(0xC000, 1), POUCH_DONE);
    sound.len--;
    REFUSED(wr(0xA000, 1), POUCH_WRONG_LENGTH);
    start(one->kind, one->banks, one->code, false, 4 + 7);
    IS(wr(0x0000, 0x0A), POUCH_DONE);
    IS(wr(0xA000, 1), POUCH_DONE); /* a byte less than two records is left: room for a byte, not for a word */
    REFUSED(pouch_write_word(WRITES, 0xA000, 1), POUCH_NO_ROOM);
    REFUSED(pouch_write_word(WRITES, 0x9FFF, 1), POUCH_NO_ROOM);
    REFUSED(pouch_write_word(WRITES, 0xBFFF, 1), POUCH_NO_ROOM);
    IS(pouch_write_word(WRITES, 0x9FFE, 1), POUCH_DONE);
    IS(wr(0xA000, 1), POUCH_DONE);
    REFUSED(wr(0xA000, 1), POUCH_NO_ROOM);
    IS(pouch_clear_log(LEND(image)), POUCH_DONE);
    IS(wr(0xA000, 1), POUCH_DONE);

    /* 3: a use of the log that is no whole records */
    start_one(false);
    memcpy(before, arena, arena_len);
    unsigned wrong = 0;
    for (unsigned used = 0; used <= POUCH_LOG_LEN_MAX; used++)
        if (used % 4 != 0)
            wrong += pouch_set_log_used(LEND(image), (uint16_t)used) != POUCH_OUT_OF_RANGE;
    IS(wrong, 0);
    IS(memcmp(before, arena, arena_len), 0);
    for (unsigned used = 0; used <= POUCH_LOG_LEN_MAX; used += 4)
        wrong += pouch_set_log_used(LEND(image), (uint16_t)used) != POUCH_DONE || ask(pouch_log_used) != used;
    IS(wrong, 0);
    REFUSED(wr(0xC000, 1), POUCH_OUT_OF_RANGE); /* beyond the lent log */

    /* the last bytes of the longest log: 65,535 is no multiple of 4 */
    start(one->kind, one->banks, one->code, false, POUCH_LOG_LEN_MAX);
    IS(wr(0x0000, 0x0A), POUCH_DONE);
    IS(pouch_set_log_used(LEND(image), 65528), POUCH_DONE);
    REFUSED(pouch_write_word(WRITES, 0xA000, 1), POUCH_NO_ROOM);
    IS(wr(0xA000, 1), POUCH_DONE);
    IS(ask(pouch_log_used), 65532);
    REFUSED(wr(0xA000, 1), POUCH_NO_ROOM);

    /* 4: of the colours, into memory between guards; 3 before it */
    start_one(true);
    REFUSED(pouch_colors(LEND(image), wram.at, POUCH_COLORS_LEN - 1), POUCH_WRONG_LENGTH);
    REFUSED(pouch_colors(LEND(image), wram.at, POUCH_COLORS_LEN + 1), POUCH_WRONG_LENGTH);
    REFUSED(pouch_colors(LEND(image), wram.at, 0), POUCH_WRONG_LENGTH);
    memset(image.at, 0, image.len);
    REFUSED(pouch_colors(LEND(image), wram.at, 0), POUCH_OUT_OF_RANGE);

    /* 4: of the sprites, and 3 before it */
    start_one(true);
    REFUSED(pouch_oam(LEND(image), wram.at, POUCH_OAM_LEN - 1), POUCH_WRONG_LENGTH);
    REFUSED(pouch_oam(LEND(image), wram.at, POUCH_OAM_LEN + 1), POUCH_WRONG_LENGTH);
    REFUSED(pouch_oam(LEND(image), wram.at, 0), POUCH_WRONG_LENGTH);
    memset(image.at, 0, image.len);
    REFUSED(pouch_oam(LEND(image), wram.at, 0), POUCH_OUT_OF_RANGE);

    /* 4: a block longer than all there is to read; 3 before it */
    static uint8_t out[POUCH_BLOCK_LEN_MAX + 1];
    memset(out, FILL, sizeof out);
    start_one(false);
    REFUSED(pouch_read_block(READS, 0x0000, out, sizeof out), POUCH_WRONG_LENGTH);
    memset(image.at, 0, image.len);
    REFUSED(pouch_read_block(READS, 0x0000, out, sizeof out), POUCH_OUT_OF_RANGE);
    IS(all_are(out, sizeof out, FILL), true);

    /* 5; 3 before it */
    start_one(false);
    IS(pouch_update_timer(LEND(image), 65536), POUCH_DONE);
    REFUSED(pouch_update_timer(LEND(image), 65537), POUCH_TOO_MANY_CYCLES);
    REFUSED(pouch_update_timer(LEND(image), 0xFFFFFFFF), POUCH_TOO_MANY_CYCLES);
    memset(image.at, 0, image.len);
    REFUSED(pouch_update_timer(LEND(image), 65537), POUCH_OUT_OF_RANGE);

    /* 6; 4 before it; a cut record is ignored */
    const uint8_t sound_records[] = {0x80, 0x00, 0x04, 0x40, 0x87, 0xFF, 0xC8, 0x80, 0x80, 0x00, 0x00},
                  no_bit[] = {0x80, 0x00, 0x04, 0x40, 0x00, 0x00, 0x08, 0x80}, outside[] = {0x80, 0x00, 0x04, 0x40, 0x88, 0x00, 0x08, 0x80};
    start_one(false);
    const uint8_t behind = save.at[8192]; /* the guard, or what else there is of a longer save */
    save.len = POUCH_SAVE_LEN_CODE_2;
    for (unsigned bit = 0; bit < 6; bit++) { /* the six last bits of a record */
        const uint8_t last[] = {0x80, 0x00, 0x04, 0x40, 0x80, 0x00, 0x08, (uint8_t)(0x80 | 1u << bit)};
        REFUSED(pouch_recover(LEND(save), last, sizeof last), POUCH_DAMAGED);
        REFUSED(pouch_recover(save.at, 513, last, sizeof last), POUCH_WRONG_LENGTH);
    }
    REFUSED(pouch_recover(LEND(save), no_bit, sizeof no_bit), POUCH_DAMAGED);
    REFUSED(pouch_recover(LEND(save), outside, sizeof outside), POUCH_DAMAGED);
    REFUSED(pouch_recover(save.at, 8191, outside, sizeof outside), POUCH_WRONG_LENGTH);
    REFUSED(pouch_recover(LEND(save), arena, POUCH_LOG_LEN_MAX + 1), POUCH_WRONG_LENGTH);
    REFUSED(pouch_recover(LEND(save), no_bit, 0), POUCH_DONE);
    REFUSED(pouch_recover(save.at, 0, no_bit, POUCH_RECORD_LEN - 1), POUCH_DONE);
    IS(pouch_recover(LEND(save), no_bit, 2 * POUCH_RECORD_LEN - 1), POUCH_DONE);
    IS(save.at[0], 0x11);
    save.at[0] = FILL;
    IS(pouch_recover(LEND(save), sound_records, sizeof sound_records), POUCH_DONE);
    IS(save.at[0], 0x11);
    IS(save.at[8191], 0x22);
    IS(all_are(save.at + 1, 8190, FILL) && all_are(save.at + 8192, GUARD_LEN, behind), true);
    for (size_t len = 0; len <= 2 * POUCH_SAVE_LEN_CODE_4; len++) { /* a save's lengths, and no others */
        const bool is = len == 0 || len == 512 || len == 8192 || len == 32768 || len == 131072;
        wrong += pouch_recover(arena, len, no_bit, 0) != (is ? POUCH_DONE : POUCH_WRONG_LENGTH);
    }
    IS(wrong, 0);

    /* 7; a length by 4 before it */
    start_one(false);
    REFUSED(pouch_press(LEND(image), 8), POUCH_OUTSIDE);
    REFUSED(pouch_release(LEND(image), 255), POUCH_OUTSIDE);
    REFUSED(pouch_request_interrupt(LEND(image), 5), POUCH_OUTSIDE);
    REFUSED(pouch_remove_interrupt(LEND(image), 255), POUCH_OUTSIDE);
    REFUSED(pouch_store(LEND(image), 0xFEFF, 1), POUCH_OUTSIDE);
    value = 0xEEEE;
    REFUSED(pouch_load(LEND(image), 0xFEFF, &value), POUCH_OUTSIDE);
    IS(value, 0);
    REFUSED(pouch_read_cgb_lcd_ram(LEND(image), LEND(vram), 0x8000, 1, &byte), POUCH_OUTSIDE);
    IS(byte, 0);
    start_one(true);
    REFUSED(pouch_read_cgb_lcd_ram(LEND(image), LEND(vram), 0x8000, 2, &byte), POUCH_OUTSIDE);
    REFUSED(pouch_read_cgb_lcd_ram(LEND(image), LEND(vram), 0x7FFF, 0, &byte), POUCH_OUTSIDE);
    REFUSED(pouch_read_cgb_lcd_ram(LEND(image), LEND(vram), 0xA000, 0, &byte), POUCH_OUTSIDE);
    vram.len--;
    REFUSED(pouch_read_cgb_lcd_ram(LEND(image), LEND(vram), 0xA000, 0, &byte), POUCH_WRONG_LENGTH);
    byte = 0xEE;
    REFUSED(pouch_mapper_read(LEND(image), LEND(rom), LEND(save), 0x8000, &byte), POUCH_OUTSIDE);
    IS(byte, 0);
    uint32_t answer = 0xEEEEEEEE;
    REFUSED(pouch_mapper_write(LEND(image), 0xC000, 1, &answer), POUCH_OUTSIDE);
    IS(answer, 0);
}

int main(void)
{
    check_fresh();
    check_saves();
    for (size_t k = 0; k < sizeof with_save / sizeof *with_save; k++) {
        one = &with_save[k];
        for (size_t i = 0; i < sizeof entries / sizeof entries[0]; i++)
            check_entry(&entries[i]);
        check_numbers();
    }
    return report("refusals");
}
