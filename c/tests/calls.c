/* What each entry of pouchrattle.h does, so that none is exchanged for another and no two arguments are; and the corners that the bus's rules name. */
#include "lent.h"

enum { /* where other fields of the image start */
    OAM = 0, BACKGROUND = 4096, DISABLED = 5057, JOYPAD_STATE = 5065, RELEASED = 5073, SCAN_LINE = 5081, SIGNAL = 5089, MODE = 5097, SOURCE = 5123,
    DESTINATION = 5139, DELAY = 5155, COUNTER = 5187, AUX = 5219, WINDOW = 5251
};

static uint16_t load(uint16_t index)
{
    value = 0xEEEE;
    IS(pouch_load(LEND(image), index, &value), POUCH_DONE);
    return value;
}

static void check_memories(void)
{
    uint8_t byte = 0xEE;
    start_one(false);
    IS(pouch_store(LEND(image), 0xFF80, 0x12), POUCH_DONE);
    IS(load(0xFF80), 0x12);
    IS(rd(0xFF80), 0x12);
    IS(pouch_write_word(WRITES, 0xC000, 0x3412), POUCH_DONE);
    IS(rd(0xC000), 0x12);
    IS(rd(0xE001), 0x34);
    IS(pouch_read_word(READS, 0xC000, &value), POUCH_DONE);
    IS(value, 0x3412);
    IS(pouch_write_word(WRITES, 0xFFFF, 0x0A00), POUCH_DONE); /* FFFF is followed by 0000 */
    IS(field(ENABLED, 1), 1);
    start_one(true);
    IS(wr(0xFF4F, 1), POUCH_DONE);
    IS(wr(0x8001, 0x77), POUCH_DONE);
    IS(wr(0xFF4F, 0), POUCH_DONE);
    IS(pouch_read_cgb_lcd_ram(LEND(image), LEND(vram), 0x8001, 1, &byte), POUCH_DONE);
    IS(byte, 0x77);
    IS(pouch_read_cgb_lcd_ram(LEND(image), LEND(vram), 0x8001, 0, &byte), POUCH_DONE);
    IS(byte, 0);
    IS(vram.at[0x2001], 0x77);
}

/* Each byte of a block is what a read gives, at the index and behind it; what stands behind the block stays. */
static void check_read_block(void)
{
    static uint8_t out[POUCH_BLOCK_LEN_MAX + 1];
    const struct {
        uint16_t index;
        size_t count;
    } blocks[] = {{0x3FF0, 32}, {0x7FF0, 32}, {0x9FF0, 32}, {0xBFF0, 32}, {0xFDF0, 32}, {0xFE80, 300}, {0xC000, 0}, {0xFFFF, POUCH_BLOCK_LEN_MAX}};
    start_one(true);
    IS(wr(0x0000, 0x0A), POUCH_DONE);
    IS(wr(0xFF70, 2), POUCH_DONE);
    for (uint16_t at = 0x8000; at < 0xFE00; at = (uint16_t)(at + 0x17))
        IS(wr(at, (uint8_t)(at ^ at >> 8)), POUCH_DONE);
    for (unsigned i = 0; i < sizeof blocks / sizeof *blocks; i++) {
        memset(out, FILL + 1, sizeof out);
        IS(pouch_read_block(READS, blocks[i].index, out, blocks[i].count), POUCH_DONE);
        unsigned wrong = 0;
        for (size_t k = 0; k < blocks[i].count; k++)
            wrong += out[k] != rd((uint16_t)(blocks[i].index + k));
        IS(wrong, 0);
        IS(out[blocks[i].count], FILL + 1);
    }
}

/* The lowest bit first. */
static void check_interrupts(void)
{
    start_one(false);
    IS(ask(pouch_get_interrupts), POUCH_NO_INTERRUPT);
    IS(pouch_store(LEND(image), 0xFFFF, 0x1F), POUCH_DONE);
    IS(ask(pouch_get_interrupts), POUCH_VBLANK);
    IS(pouch_remove_interrupt(LEND(image), POUCH_VBLANK), POUCH_DONE);
    IS(ask(pouch_get_interrupts), POUCH_NO_INTERRUPT);
    for (uint8_t i = POUCH_JOYPAD + 1; i-- > POUCH_VBLANK;) {
        IS(pouch_request_interrupt(LEND(image), i), POUCH_DONE);
        IS(ask(pouch_get_interrupts), i);
    }
}

/* Each button has its own bit. */
static void check_buttons(void)
{
    const uint8_t bits[] = {0x04, 0x08, 0x02, 0x01, 0x10, 0x20, 0x80, 0x40}; /* Up, Down, Left, Right, A, B, Start, Select */
    start_one(false);
    for (uint8_t i = POUCH_UP; i <= POUCH_SELECT; i++) {
        IS(pouch_press(LEND(image), i), POUCH_DONE);
        IS(field(RELEASED, 8), 0xFF - bits[i]);
        IS(pouch_update_joypad(LEND(image)), POUCH_DONE);
        IS(field(JOYPAD_STATE, 8), 0xFF - bits[i]);
        IS(pouch_release(LEND(image), i), POUCH_DONE);
        IS(field(RELEASED, 8), 0xFF);
    }
    IS(pouch_set_joypad_state(LEND(image), 0x3C), POUCH_DONE);
    IS(field(JOYPAD_STATE, 8), 0x3C);
    IS(wr(0xFF00, 0x10), POUCH_DONE);
    IS(ask(pouch_are_action_keys_enabled), 1);
    IS(ask(pouch_are_direction_keys_enabled), 0);
    IS(wr(0xFF00, 0x20), POUCH_DONE);
    IS(ask(pouch_are_action_keys_enabled), 0);
    IS(ask(pouch_are_direction_keys_enabled), 1);
}

static void check_screen(void)
{
    uint8_t disabled = 0xEE, line = 0xEE, signal = 0xEE, mode = 0xEE;
    int32_t delay = 0, counter = 0, aux = 0, window = 0;
    start_one(false);
    IS(pouch_host(LEND(image), false, 0x12, 0x34, 0x56, -2, 0x11111111, 0x22222222, INT32_MIN), POUCH_DONE);
    IS(field(DISABLED, 1), 0);
    IS(field(SCAN_LINE, 8), 0x12);
    IS(field(SIGNAL, 8), 0x34);
    IS(field(MODE, 8), 0x56);
    IS(field(DELAY, 32), 0xFFFFFFFE);
    IS(field(COUNTER, 32), 0x11111111);
    IS(field(AUX, 32), 0x22222222);
    IS(field(WINDOW, 32), 0x80000000);
    IS(pouch_host_numbers(LEND(image), &disabled, &line, &signal, &mode, &delay, &counter, &aux, &window), POUCH_DONE);
    IS(disabled, 0);
    IS(line, 0x12);
    IS(signal, 0x34);
    IS(mode, 0x56);
    IS(delay, -2);
    IS(counter, 0x11111111);
    IS(aux, 0x22222222);
    IS(window, INT32_MIN);
    IS(rd(0xFF44), 0x12);
    IS(pouch_store(LEND(image), 0xFF45, 0x12), POUCH_DONE);
    IS(pouch_compare_ly_to_lyc(LEND(image)), POUCH_DONE);
    IS(load(0xFF41) & 4, 4);
    IS(pouch_disable_screen(LEND(image)), POUCH_DONE);
    IS(field(DISABLED, 1), 1);
    IS(pouch_host_numbers(LEND(image), &disabled, &line, &signal, &mode, &delay, &counter, &aux, &window), POUCH_DONE);
    IS(disabled, 1);
    IS(field(SCAN_LINE, 8), 0);
    IS(pouch_enable_screen(LEND(image)), POUCH_DONE);
    IS(field(DELAY, 32), 244);
    IS(pouch_host(LEND(image), true, 10, 0, 0, 0, 0, 0, 0), POUCH_DONE);
    IS(rd(0xFF44), 0);
    IS(pouch_store(LEND(image), 0xFF4A, 9), POUCH_DONE);
    IS(pouch_reset_window_line(LEND(image)), POUCH_DONE);
    IS(field(WINDOW, 32), 144);

    /* a call of a screen register's write does what the write does */
    uint8_t (*const calls[])(uint8_t *, size_t, uint8_t) = {
        pouch_do_lcd_control_write, pouch_do_lcd_status_write, pouch_do_scanline_write, pouch_do_lyc_write};
    const uint16_t indexes[] = {0xFF40, 0xFF41, 0xFF44, 0xFF45};
    for (int i = 0; i < 4; i++) {
        uint8_t by_write[POUCH_IMAGE_LEN];
        start_one(false);
        IS(wr(indexes[i], 0x35), POUCH_DONE);
        memcpy(by_write, image.at, image.len);
        start_one(false);
        IS(memcmp(by_write, image.at, image.len) != 0, true);
        IS(calls[i](LEND(image), 0x35), POUCH_DONE);
        IS(memcmp(by_write, image.at, image.len), 0);
    }
}

/* The eight numbers, in the order of pouch_host. */
struct numbers {
    int64_t at[8];
};

static struct numbers shown(void)
{
    uint8_t disabled = 0xEE, line = 0xEE, signal = 0xEE, mode = 0xEE;
    int32_t delay = -1, counter = -1, aux = -1, window = -1;
    IS(pouch_host_numbers(LEND(image), &disabled, &line, &signal, &mode, &delay, &counter, &aux, &window), POUCH_DONE);
    struct numbers numbers = {{disabled, line, signal, mode, delay, counter, aux, window}};
    return numbers;
}

static uint8_t set_one(int which, int64_t to)
{
    switch (which) {
    case 0: return pouch_set_screen_disabled(LEND(image), to != 0);
    case 1: return pouch_set_scan_line(LEND(image), (uint8_t)to);
    case 2: return pouch_set_irq48_signal(LEND(image), (uint8_t)to);
    case 3: return pouch_set_lcd_status_mode(LEND(image), (uint8_t)to);
    case 4: return pouch_set_screen_enable_delay_cycles(LEND(image), (int32_t)to);
    case 5: return pouch_set_cycles_counter(LEND(image), (int32_t)to);
    case 6: return pouch_set_aux_cycles_counter(LEND(image), (int32_t)to);
    default: return pouch_set_window_line(LEND(image), (int32_t)to);
    }
}

/* Each sets its one number, and no other bit of the image: from eight numbers with every bit clear, then with every bit set. */
static void check_one_number(void)
{
    const int64_t values[8][3] = {
        {0, 1, 0}, {0, 0xA5, 0xFF}, {0x5A, 0xFF, 0}, {3, 0xC3, 0xFE}, {-244, INT32_MAX, 0}, {INT32_MIN, 0x12345678, -1}, {1, -2, 456}, {144, -0x12345678, 0}};
    for (int set = 0; set < 2; set++)
        for (int which = 0; which < 8; which++)
            for (int i = 0; i < 3; i++) {
                uint8_t wanted[POUCH_IMAGE_LEN];
                start_one(true);
                IS(pouch_host(LEND(image), set, set * 0xFF, set * 0xFF, set * 0xFF, -set, -set, -set, -set), POUCH_DONE);
                struct numbers other = shown();
                other.at[which] = values[which][i];
                memcpy(wanted, image.at, sizeof wanted);
                IS(pouch_host(
                       wanted, sizeof wanted, other.at[0] != 0, (uint8_t)other.at[1], (uint8_t)other.at[2], (uint8_t)other.at[3], (int32_t)other.at[4],
                       (int32_t)other.at[5], (int32_t)other.at[6], (int32_t)other.at[7]),
                   POUCH_DONE);
                IS(set_one(which, values[which][i]), POUCH_DONE);
                struct numbers now = shown();
                for (int k = 0; k < 8; k++)
                    IS(now.at[k], other.at[k]);
                IS(memcmp(image.at, wanted, sizeof wanted), 0);
            }
}

/* The game turns the screen off while the host draws. The host's copies, set all at once, turn it on again; one at a time they do not. */
static void check_turned_off(void)
{
    for (int one_by_one = 0; one_by_one < 2; one_by_one++) {
        start_one(true);
        IS(pouch_host(LEND(image), false, 20, 0, 3, 0, 200, 10, 5), POUCH_DONE);
        struct numbers mine = shown();
        IS(wr(0xFF40, 0x00), POUCH_DONE);
        IS(shown().at[0], 1);
        IS(rd(0xFF44), 0);
        mine.at[5] += 4;
        if (one_by_one)
            for (int which = 1; which < 8; which++)
                IS(set_one(which, mine.at[which]), POUCH_DONE);
        else
            IS(pouch_host(
                   LEND(image), mine.at[0] != 0, (uint8_t)mine.at[1], (uint8_t)mine.at[2], (uint8_t)mine.at[3], (int32_t)mine.at[4], (int32_t)mine.at[5],
                   (int32_t)mine.at[6], (int32_t)mine.at[7]),
               POUCH_DONE);
        IS(shown().at[0], one_by_one);
        IS(rd(0xFF44), one_by_one ? 0 : 20);
        IS(shown().at[5], 204);
    }
    /* on again by the game: the delay, and then the host */
    start_one(true);
    IS(wr(0xFF40, 0x00), POUCH_DONE);
    IS(wr(0xFF40, 0x91), POUCH_DONE);
    IS(shown().at[0], 1);
    IS(shown().at[4], 244);
    IS(pouch_set_screen_enable_delay_cycles(LEND(image), 0), POUCH_DONE);
    IS(pouch_set_screen_disabled(LEND(image), false), POUCH_DONE);
    IS(pouch_set_scan_line(LEND(image), 7), POUCH_DONE);
    IS(rd(0xFF44), 7);
}

/* The header's words on what the bus changes. */
static void check_shared_numbers(void)
{
    const struct numbers on = {{0, 20, 0x0F, 2, 9, 200, 10, 0}}, high = {{0, 140, 0x0F, 2, 9, 200, 10, 0}};
    const struct {
        const struct numbers *from;
        uint8_t window_top, control, compare; /* FF4A, FF40, FF45 */
        uint16_t index;
        uint8_t byte;
        struct numbers to;
    } writes[] = {
        {&on, 30, 0x80, 0, 0xFF40, 0x00, {{1, 0, 0, 0, 9, 0, 0, 0}}},        /* off */
        {&on, 30, 0x80, 0, 0xFF40, 0xFF, {{0, 20, 0x0F, 2, 9, 200, 10, 0}}}, /* the window on before its line */
        {&on, 19, 0x80, 0, 0xFF40, 0xA0, {{0, 20, 0x0F, 2, 9, 200, 10, 144}}},
        {&on, 19, 0xA0, 0, 0xFF40, 0xA0, {{0, 20, 0x0F, 2, 9, 200, 10, 0}}}, /* it was on */
        {&on, 30, 0x80, 0, 0xFF41, 0x28, {{0, 20, 0x05, 2, 9, 200, 10, 0}}}, /* sources of modes 0 and 2 */
        {&on, 30, 0x00, 0, 0xFF41, 0x40, {{0, 20, 0x08, 2, 9, 200, 10, 0}}}, /* no comparison: FF40's bit 7 is clear */
        {&on, 30, 0x80, 0, 0xFF41, 0x40, {{0, 20, 0x00, 2, 9, 200, 10, 0}}},
        {&on, 30, 0x80, 20, 0xFF41, 0x40, {{0, 20, 0x08, 2, 9, 200, 10, 0}}},
        {&on, 30, 0x80, 0, 0xFF44, 0x00, {{0, 20, 0x0F, 2, 9, 200, 10, 0}}},
        {&high, 30, 0x80, 0, 0xFF44, 0x7F, {{1, 0, 0, 0, 9, 0, 0, 0}}},
        {&high, 30, 0x80, 0, 0xFF44, 0x80, {{0, 140, 0x0F, 2, 9, 200, 10, 0}}},
        {&on, 30, 0x80, 0, 0xFF45, 0x21, {{0, 20, 0x07, 2, 9, 200, 10, 0}}},
        {&on, 30, 0x80, 0, 0xFF45, 0x00, {{0, 20, 0x0F, 2, 9, 200, 10, 0}}}, /* the same byte */
        {&on, 30, 0x00, 0, 0xFF45, 0x21, {{0, 20, 0x0F, 2, 9, 200, 10, 0}}},
    };
    start_one(true);
    const struct numbers first = {{0, 144, 0, 1, 0, 0, 0, 0}};
    IS(memcmp(shown().at, first.at, sizeof first.at), 0);
    for (unsigned i = 0; i < sizeof writes / sizeof *writes; i++) {
        start_one(true);
        for (int which = 0; which < 8; which++)
            IS(set_one(which, writes[i].from->at[which]), POUCH_DONE);
        IS(pouch_store(LEND(image), 0xFF4A, writes[i].window_top), POUCH_DONE);
        IS(pouch_store(LEND(image), 0xFF40, writes[i].control), POUCH_DONE);
        IS(pouch_store(LEND(image), 0xFF45, writes[i].compare), POUCH_DONE);
        IS(wr(writes[i].index, writes[i].byte), POUCH_DONE);
        struct numbers now = shown();
        for (int k = 0; k < 8; k++)
            check(now.at[k], writes[i].to.at[k], "a number of the screen", "", (int)i);
    }
}

/* FF4D is armed by the game and switched by the host. */
static void check_speed(void)
{
    start_one(true);
    IS(rd(0xFF4D) & 0x80, 0);
    IS(wr(0xFF4D, 0x01), POUCH_DONE);
    IS(rd(0xFF4D), 0x7F);
    IS(pouch_store(LEND(image), 0xFF4D, (uint8_t)(load(0xFF4D) ^ 0x81)), POUCH_DONE);
    IS(rd(0xFF4D), 0xFE);
    IS(wr(0xFF4D, 0x01), POUCH_DONE);
    IS(rd(0xFF4D), 0xFF);
    IS(pouch_store(LEND(image), 0xFF4D, (uint8_t)(load(0xFF4D) ^ 0x81)), POUCH_DONE);
    IS(rd(0xFF4D), 0x7E);
}

/* The sprites are what reads of FE00..FE9F give, by a transfer and by a write; what stands behind them stays. */
static void check_oam(void)
{
    uint8_t oam[POUCH_OAM_LEN + 1];
    start_one(true);
    for (uint16_t at = 0; at < 0x100; at++)
        IS(wr((uint16_t)(0xC100 + at), (uint8_t)(at * 7 + 1)), POUCH_DONE);
    IS(wr(0xFF46, 0xC1), POUCH_DONE);
    IS(wr(0xFE9F, 0x99), POUCH_DONE);
    IS(wr(0xFEA0, 0x77), POUCH_DONE);
    memset(oam, FILL, sizeof oam);
    IS(pouch_oam(LEND(image), oam, POUCH_OAM_LEN), POUCH_DONE);
    for (uint16_t at = 0; at < POUCH_OAM_LEN; at++) {
        IS(oam[at], rd((uint16_t)(0xFE00 + at)));
        IS(oam[at], at == 0x9F ? 0x99 : (uint8_t)(at * 7 + 1));
    }
    IS(oam[POUCH_OAM_LEN], FILL);
}

static void check_version(void)
{
    IS(pouch_version() == POUCH_VERSION, true);
    IS(POUCH_MAJOR_OF(pouch_version()), POUCH_VERSION_MAJOR);
    IS(POUCH_MINOR_OF(pouch_version()), POUCH_VERSION_MINOR);
    IS(POUCH_PATCH_OF(pouch_version()), POUCH_VERSION_PATCH);
    IS(POUCH_IMAGE_LEN_OF(pouch_version()), POUCH_IMAGE_LEN);
    IS(POUCH_RECORD_LEN_OF(pouch_version()), POUCH_RECORD_LEN);
    IS(pouch_version() == 0x0003000000029A04, true);
}

/* Each colour at its three bytes: the background's second and the sprites' last, and no others. */
static void check_colors(void)
{
    uint8_t colors[POUCH_COLORS_LEN], wanted[POUCH_COLORS_LEN];
    start_one(true);
    IS(pouch_colors(LEND(image), wanted, sizeof wanted), POUCH_DONE);
    IS(wr(0xFF68, 0x82), POUCH_DONE);
    IS(wr(0xFF69, 0xE2), POUCH_DONE);
    IS(wr(0xFF69, 0x0F), POUCH_DONE);
    IS(wr(0xFF6A, 0xBE), POUCH_DONE);
    IS(wr(0xFF6B, 0x1F), POUCH_DONE);
    IS(wr(0xFF6B, 0x7C), POUCH_DONE);
    memcpy(wanted + 3, "\x02\x1F\x03", 3);
    memcpy(wanted + POUCH_COLORS_LEN - 3, "\x1F\x00\x1F", 3);
    IS(pouch_colors(LEND(image), colors, sizeof colors), POUCH_DONE);
    IS(memcmp(colors, wanted, sizeof colors), 0);
}

static void check_blocks(void)
{
    start_one(true);
    IS(ask(pouch_is_hdma_enabled), 0);
    IS(wr(0xFF55, 0x81), POUCH_DONE);
    IS(ask(pouch_is_hdma_enabled), 1);
}

/* A record for each stored byte, the same value too; clearing leaves the bytes. */
static void check_log(void)
{
    start_one(false);
    IS(wr(0xA001, 0x11), POUCH_DONE); /* RAM is off: not stored */
    IS(ask(pouch_log_used), 0);
    IS(wr(0x0000, 0x0A), POUCH_DONE);
    IS(wr(0xA001, 0x11), POUCH_DONE);
    IS(wr(0xA001, 0x11), POUCH_DONE);
    IS(pouch_write_word(WRITES, 0xBFFE, 0x3322), POUCH_DONE);
    IS(ask(pouch_log_used), 4 * POUCH_RECORD_LEN);
    IS(memcmp(log_.at, "\x80\x00\x44\x40\x80\x00\x44\x40\x87\xFF\x88\x80\x87\xFF\xCC\xC0\x5A", 4 * POUCH_RECORD_LEN + 1), 0);
    IS(save.at[1] == 0x11 && save.at[8190] == 0x22 && save.at[8191] == 0x33, true);
    IS(pouch_clear_log(LEND(image)), POUCH_DONE);
    IS(ask(pouch_log_used), 0);
    IS(field(LOG_USE, 16), 0);
    IS(log_.at[0], 0x80);

    /* an older image with the log as it is now */
    uint8_t older[POUCH_IMAGE_LEN];
    memcpy(older, image.at, image.len);
    IS(wr(0xA002, 0x44), POUCH_DONE);
    IS(wr(0xA003, 0x55), POUCH_DONE);
    uint16_t used = ask(pouch_log_used);
    IS(used, 2 * POUCH_RECORD_LEN);
    IS(pouch_set_log_used(older, sizeof older, used), POUCH_DONE);
    IS(memcmp(older, image.at, image.len), 0);
}

/* The corners that the bus's rules name, each from a fresh bus */

static void check_timer_corners(void)
{
    const struct {
        uint32_t cycles;
        uint8_t div;
    } divs[] = {{255, 0xD3}, {256, 0xD4}, {11520, 0x00}};
    for (int i = 0; i < 3; i++) {
        start_one(false);
        IS(rd(0xFF44), 0x90);
        IS(rd(0xFF00), 0xC0);
        IS(pouch_update_timer(LEND(image), divs[i].cycles), POUCH_DONE);
        IS(rd(0xFF04), divs[i].div);
    }
    const struct {
        uint32_t cycles;
        uint8_t tima, flags;
    } timas[] = {{15, 0xFF, 0xE1}, {16, 0xF0, 0xE5}, {272, 0xF0, 0xE5}};
    for (int i = 0; i < 3; i++) {
        start_one(false);
        IS(wr(0xFF07, 0x05), POUCH_DONE);
        IS(wr(0xFF06, 0xF0), POUCH_DONE);
        IS(wr(0xFF05, 0xFF), POUCH_DONE);
        IS(pouch_update_timer(LEND(image), timas[i].cycles), POUCH_DONE);
        IS(rd(0xFF05), timas[i].tima);
        IS(rd(0xFF0F), timas[i].flags);
    }
}

static uint32_t cycles_left(void)
{
    uint32_t cycles = 0xEEEEEEEE;
    IS(pouch_cycles_to_overflow(LEND(image), &cycles), POUCH_DONE);
    return cycles;
}

/* One cycle fewer requests nothing; from there on Timer is requested. */
static void check_cycles_to_overflow(void)
{
    const struct {
        uint8_t control, tima;
        uint32_t gone, left;
    } timers[] = {{0x05, 0xFF, 0, 16}, {0x05, 0xF0, 4, 252}, {0x06, 0x80, 63, 128 * 64 - 63}, {0x07, 0x01, 1, 65279}, {0x04, 0xFF, 1000, 24}};
    for (unsigned i = 0; i < sizeof timers / sizeof *timers; i++)
        for (unsigned more = 0; more < 3; more++) {
            start_one(false);
            IS(cycles_left(), POUCH_NEVER);
            IS(wr(0xFF07, timers[i].control), POUCH_DONE);
            IS(wr(0xFF05, timers[i].tima), POUCH_DONE);
            IS(pouch_update_timer(LEND(image), timers[i].gone), POUCH_DONE);
            IS(cycles_left(), timers[i].left);
            IS(pouch_update_timer(LEND(image), timers[i].left - 1 + more), POUCH_DONE);
            IS(rd(0xFF0F), more == 0 ? 0xE1 : 0xE5);
        }
    start_one(false);
    IS(wr(0xFF07, 0x04), POUCH_DONE);
    IS(cycles_left(), 256 * 1024);
    IS(wr(0xFF05, 0xFF), POUCH_DONE);
    IS(pouch_update_timer(LEND(image), 1000), POUCH_DONE);
    IS(wr(0xFF07, 0x05), POUCH_DONE); /* 1,000 cycles are more than a period now */
    IS(cycles_left(), 0);
    IS(pouch_update_timer(LEND(image), 0), POUCH_DONE);
    IS(rd(0xFF0F), 0xE5);
}

/* OAM DMA from ROM, by each way to it: the bytes of the bank that was selected before, as reads give them; the 96 behind them stay. */
static void check_sprites_from_rom(void)
{
    const struct {
        uint8_t kind, code;
        uint16_t banks, bank;
    } cartridges[] = {{POUCH_ROM_ONLY, 0, 2, 1}, {POUCH_MBC1, 2, 8, 5},   {POUCH_MBC1, 3, 64, 19},   {POUCH_MBC2, 0, 16, 11},   {POUCH_MBC5, 0, 2, 0},
                      {POUCH_MBC5, 2, 8, 7},     {POUCH_MBC5, 3, 64, 32}, {POUCH_MBC5, 3, 256, 128}, {POUCH_MBC5, 2, 512, 256}, {POUCH_MBC5, 3, 512, 511},
                      {POUCH_MBC5, 4, 64, 63},   {POUCH_MBC5, 4, 512, 300}};
    const uint8_t pages[] = {0x00, 0x3F, 0x40, 0x7F};
    uint8_t behind[256 - POUCH_OAM_LEN], block[POUCH_OAM_LEN];
    for (unsigned i = 0; i < sizeof cartridges / sizeof *cartridges; i++) {
        start(cartridges[i].kind, cartridges[i].banks, cartridges[i].code, i % 2 == 1, 4095);
        for (size_t at = 0; at < rom.len; at++)
            rom.at[at] = (uint8_t)(at + at / 256 * 3 + at / POUCH_ROM_BANK_LEN * 7 + at / POUCH_ROM_BANK_LEN / 256 * 5);
        IS(wr(0x2100, (uint8_t)cartridges[i].bank), POUCH_DONE);
        if (cartridges[i].kind == POUCH_MBC5)
            IS(wr(0x3000, (uint8_t)(cartridges[i].bank >> 8)), POUCH_DONE);
        for (uint16_t at = 0xFEA0; at <= 0xFEFF; at++)
            IS(wr(at, (uint8_t)~at), POUCH_DONE);
        memcpy(behind, image.at + POUCH_OAM_LEN, sizeof behind);
        for (unsigned k = 0; k < 4 * sizeof pages; k++) {
            uint8_t page = pages[k % 4];
            size_t from = page < 0x40 ? page * 256u : (size_t)cartridges[i].bank * POUCH_ROM_BANK_LEN + (page - 0x40u) * 256u;
            IS(pouch_read_block(READS, (uint16_t)(page * 256), block, sizeof block), POUCH_DONE);
            IS(memcmp(block, rom.at + from, sizeof block), 0);
            switch (k / 4) {
            case 0: IS(wr(0xFF46, page), POUCH_DONE); break;
            case 1: IS(pouch_do_dma_transfer(WRITES, page), POUCH_DONE); break;
            case 2: IS(pouch_write_word(WRITES, 0xFF46, (uint16_t)(0xE400 | page)), POUCH_DONE); break;
            default: IS(pouch_write_word(WRITES, 0xFF45, (uint16_t)(page * 256 | 0x90)), POUCH_DONE);
            }
            IS(memcmp(image.at, block, sizeof block), 0);
            IS(memcmp(image.at + sizeof block, behind, sizeof behind), 0);
            IS(pouch_write_byte(WRITES, 0xFE00, (uint8_t)~image.at[0]), POUCH_DONE);
        }
    }
}

static void check_transfer_corners(void)
{
    const struct {
        uint8_t page, first;
    } pages[] = {{0x7F, FILL}, {0x80, 0x21}, {0xDF, 0x43}, {0xE0, 0}};
    for (int i = 0; i < 4; i++)
        for (int by_write = 0; by_write < 2; by_write++) {
            start_one(false);
            IS(wr(0x8000, 0x21), POUCH_DONE);
            IS(wr(0xDF00, 0x43), POUCH_DONE);
            IS(wr(0xC000, 0x65), POUCH_DONE);
            IS(by_write ? wr(0xFF46, pages[i].page) : pouch_do_dma_transfer(WRITES, pages[i].page), POUCH_DONE);
            IS(rd(0xFE00), pages[i].first);
            IS(field(OAM, 8), pages[i].first);
        }
    const uint8_t kept[][2] = {{0x7F, 0x7F}, {0xC0, 0xC0}, {0x80, 0x00}, {0xBF, 0x00}};
    for (int i = 0; i < 4; i++) {
        start_one(true);
        IS(wr(0xFF51, kept[i][0]), POUCH_DONE);
        IS(rd(0xFF51), kept[i][1]);
    }
    start_one(true);
    IS(wr(0xFF70, 0x00), POUCH_DONE);
    IS(rd(0xFF70), 0x40);

    /* a block from 7FF0 to 9FF0 */
    start_one(true);
    IS(wr(0xFF51, 0x7F), POUCH_DONE);
    IS(wr(0xFF52, 0xF0), POUCH_DONE);
    IS(wr(0xFF53, 0x1F), POUCH_DONE);
    IS(wr(0xFF54, 0xF0), POUCH_DONE);
    IS(pouch_do_hdma(WRITES, &value), POUCH_DONE);
    IS(value, 36);
    const uint8_t shown[] = {0xA0, 0x00, 0x80, 0x00};
    for (uint16_t i = 0; i < 4; i++)
        IS(rd((uint16_t)(0xFF51 + i)), shown[i]);
    IS(all_are(vram.at + 0x1FF0, 16, FILL) && vram.at[0x2000] == 0, true);

    /* fresh: FFF0..FFFF to 9FF0..9FFF */
    start_one(true);
    IS(wr(0xFFF0, 0x99), POUCH_DONE);
    IS(wr(0xFF55, 0x00), POUCH_DONE);
    IS(vram.at[0x1FF0], 0x99);
    IS(field(SOURCE, 16), 0x0000);
    IS(field(DESTINATION, 16), 0xA000);

    /* over the end of video memory: 16 bytes land, save and log are untouched */
    start_one(true);
    IS(wr(0x0000, 0x0A), POUCH_DONE);
    IS(wr(0xFF51, 0x40), POUCH_DONE);
    IS(wr(0xFF52, 0x10), POUCH_DONE);
    IS(wr(0xFF53, 0x1F), POUCH_DONE);
    IS(wr(0xFF54, 0xF0), POUCH_DONE);
    IS(wr(0xFF55, 0x01), POUCH_DONE);
    IS(all_are(vram.at, 0x1FF0, 0) && all_are(vram.at + 0x1FF0, 16, FILL) && all_are(vram.at + 0x2000, 0x2000, 0), true);
    IS(all_are(save.at, save.len, FILL) && all_are(log_.at, log_.len, FILL), true);
    IS(ask(pouch_log_used), 0);
    IS(field(DESTINATION, 16), 0xA010);
}

static void check_mapper_corners(void)
{
    start(POUCH_MBC1, 4, 0, false, 0);
    IS(wr(0x2000, 0x10), POUCH_DONE);
    IS(rd(0x4000), 0);
    IS(wr(0x4000, 0x00), POUCH_DONE);
    IS(rd(0x4000), 1);
    start(POUCH_MBC1, 128, 0, false, 0);
    IS(wr(0x4000, 1), POUCH_DONE);
    IS(wr(0x2000, 0), POUCH_DONE);
    IS(rd(0x4000), 33);
    IS(field(ROM_BANK, 9), 33);

    /* Mbc5: any bank, 0 too, of nine bits; four RAM banks, of which 4 is 0 again */
    start(POUCH_MBC5, 512, 3, false, 2 * POUCH_RECORD_LEN);
    IS(rd(0x4000), 1);
    IS(wr(0x2000, 0x00), POUCH_DONE);
    IS(rd(0x4000) == 0 && rd(0x4001) == 0, true);
    IS(wr(0x3000, 0xFF), POUCH_DONE);
    IS(rd(0x4000) == 0 && rd(0x4001) == 1, true);
    IS(field(ROM_BANK, 9), 256);
    IS(wr(0x0000, 0x0A), POUCH_DONE);
    IS(wr(0x4000, 3), POUCH_DONE);
    IS(wr(0xA001, 0x77), POUCH_DONE);
    IS(wr(0x4000, 4), POUCH_DONE);
    IS(wr(0xA001, 0x88), POUCH_DONE);
    IS(memcmp(log_.at, "\x98\x00\x5D\xC0\x80\x00\x62\x00", 2 * POUCH_RECORD_LEN), 0);
    IS(save.at[3 * 8192 + 1] == 0x77 && save.at[1] == 0x88, true);

    /* sixteen RAM banks, of which 16 is 0 again; the last byte of the save has the last address of a record */
    start(POUCH_MBC5, 2, 4, false, 2 * POUCH_RECORD_LEN);
    IS(wr(0x0000, 0x0A), POUCH_DONE);
    IS(wr(0x4000, 15), POUCH_DONE);
    IS(wr(0xBFFF, 0x77), POUCH_DONE);
    IS(wr(0x4000, 16), POUCH_DONE);
    IS(wr(0xA001, 0x88), POUCH_DONE);
    IS(memcmp(log_.at, "\xFF\xFF\xDD\xC0\x80\x00\x62\x00", 2 * POUCH_RECORD_LEN), 0);
    IS(save.len == 131072 && save.at[131071] == 0x77 && save.at[1] == 0x88, true);

    start(POUCH_MBC2, 2, 0, false, POUCH_RECORD_LEN);
    IS(wr(0x0000, 0x0A), POUCH_DONE);
    IS(wr(0xA000, 0xAB), POUCH_DONE);
    IS(save.at[0], 0x0B);
    IS(memcmp(log_.at, "\x80\x00\x02\xC0", POUCH_RECORD_LEN), 0);
}

static void check_other_corners(void)
{
    start_one(false);
    IS(wr(0x0000, 0x0A), POUCH_DONE);
    IS(wr(0xB234, 0x56), POUCH_DONE);
    IS(memcmp(log_.at, "\x84\x8D\x15\x80", POUCH_RECORD_LEN), 0);

    start_one(true);
    IS(wr(0xFF68, 0x80), POUCH_DONE);
    IS(wr(0xFF69, 0x1F), POUCH_DONE);
    IS(wr(0xFF69, 0x7C), POUCH_DONE);
    IS(field(BACKGROUND, 15), 31 << 10 | 0 << 5 | 31);
    IS(rd(0xFF68), 0xC2);

    start_one(false);
    IS(pouch_press(LEND(image), POUCH_A), POUCH_DONE);
    IS(pouch_press(LEND(image), POUCH_UP), POUCH_DONE);
    IS(pouch_update_joypad(LEND(image)), POUCH_DONE);
    IS(rd(0xFF0F), 0xF1);
    IS(rd(0xFF00), 0xCB);
}

/* The mapper alone answers, and touches neither save nor log. */
static void check_mapper(void)
{
    uint8_t byte = 0;
    uint32_t answer = 1;
    start_one(false);
    IS(pouch_mapper_write(LEND(image), 0xB234, 0x56, &answer), POUCH_DONE);
    IS(answer, 0);
    IS(pouch_mapper_read(LEND(image), LEND(rom), LEND(save), 0xB234, &byte), POUCH_DONE);
    IS(byte, 0xFF);
    IS(pouch_mapper_write(LEND(image), 0x0000, 0x0A, &answer), POUCH_DONE);
    IS(answer, 0);
    IS(pouch_mapper_write(LEND(image), 0xB234, 0x56, &answer), POUCH_DONE);
    IS(answer, 0x848D1580);
    IS(pouch_mapper_read(LEND(image), LEND(rom), LEND(save), 0xB234, &byte), POUCH_DONE);
    IS(byte, FILL);
    IS(all_are(save.at, save.len, FILL) && all_are(log_.at, log_.len, FILL), true);
    IS(ask(pouch_log_used), 0);
}

int main(void)
{
    for (size_t i = 0; i < sizeof with_save / sizeof *with_save; i++) {
        one = &with_save[i];
        check_memories();
        check_read_block();
        check_mapper();
        check_interrupts();
        check_buttons();
        check_screen();
        check_one_number();
        check_turned_off();
        check_shared_numbers();
        check_speed();
        check_colors();
        check_oam();
        check_blocks();
        check_log();
        check_timer_corners();
        check_cycles_to_overflow();
        check_transfer_corners();
        check_other_corners();
    }
    check_mapper_corners();
    check_sprites_from_rom();
    check_version();
    return report("calls");
}
