/* A host that draws: plays the scenes of standard input (draw/scenes.txt says their form in rust/examples/draw/scenes.rs) and prints for each frame a sum of
 * its picture, and one of all else that drawing reads. It looks into no image: the library gives what drawing needs, and takes one number at a time, so that
 * a screen which the game turned off stays off. */
#include <pouch_bus.h>
#include <stdio.h>
#include <stdlib.h>
#include <string.h>

enum { WIDTH = 160, HEIGHT = 144, LINE_CYCLES = 456, SPRITES_ON_LINE = 10 };

static uint8_t rom[32768], vram[POUCH_VRAM_LEN_COLOUR], wram[POUCH_WRAM_LEN_COLOUR], save[POUCH_SAVE_LEN_CODE_2], save_log[POUCH_LOG_LEN_MAX],
    sound[POUCH_SOUND_LEN];
static struct pouch_bus bus;
static bool colour;
static uint8_t next_line;
static uint64_t picture, seen;

/* The numbers that the drawing part and the bus share. */
struct numbers {
    uint8_t disabled, line, signal, mode;
    int32_t delay, counter, aux, window;
};

static void must(uint8_t number)
{
    if (number > POUCH_OWED) {
        fprintf(stderr, "draw: refused by %d\n", number);
        exit(1);
    }
}

static void add(uint64_t *digest, uint8_t byte)
{
    *digest = (*digest * 257 + byte + 1) % 4294967291u;
}

static void add_number(uint64_t *digest, int32_t number)
{
    uint32_t bits = (uint32_t)number;
    add(digest, (uint8_t)(bits >> 24));
    add(digest, (uint8_t)(bits >> 16));
    add(digest, (uint8_t)(bits >> 8));
    add(digest, (uint8_t)bits);
}

static struct numbers numbers(void)
{
    struct numbers n;
    must(pouch_host_numbers(bus.image, sizeof bus.image, &n.disabled, &n.line, &n.signal, &n.mode, &n.delay, &n.counter, &n.aux, &n.window));
    return n;
}

static uint8_t tile_byte(uint16_t index, uint8_t bank)
{
    uint8_t value;
    must(pouch_read_cgb_lcd_ram(bus.image, sizeof bus.image, bus.vram, bus.vram_len, index, bank, &value));
    return value;
}

/* Two bits of a tile's row. */
static uint8_t bits(uint16_t address, uint8_t bank, int column)
{
    int low = tile_byte(address, bank) >> (7 - column) & 1;
    int high = tile_byte((uint16_t)(address + 1), bank) >> (7 - column) & 1;
    return (uint8_t)(low | high << 1);
}

static uint16_t packed(const uint8_t *color)
{
    return (uint16_t)(color[0] | color[1] << 5 | color[2] << 10);
}

/* A monochrome palette's shade, as a grey. */
static uint16_t grey(uint8_t palette, uint8_t value)
{
    static const uint8_t shades[4] = {31, 21, 10, 0};
    uint8_t shade = shades[palette >> (2 * value) & 3];
    return (uint16_t)(shade | shade << 5 | shade << 10);
}

struct dot {
    uint8_t value;
    uint16_t color;
    bool first;
};

static struct dot background(uint8_t control, const uint8_t *colors, bool second, int x, int y)
{
    struct dot dot;
    uint16_t place = (uint16_t)((second ? 0x9C00 : 0x9800) + y / 8 * 32 + x / 8);
    uint8_t tile = tile_byte(place, 0);
    uint8_t attributes = colour ? tile_byte(place, 1) : 0;
    uint16_t tiles = (uint16_t)(control & 0x10 ? 0x8000 + tile * 16 : 0x8800 + (tile ^ 0x80) * 16);
    int row = attributes & 0x40 ? 7 - y % 8 : y % 8;
    int column = attributes & 0x20 ? 7 - x % 8 : x % 8;
    dot.value = bits((uint16_t)(tiles + row * 2), attributes >> 3 & 1, column);
    dot.first = (attributes & 0x80) != 0;
    if (colour) {
        dot.color = packed(colors + 3 * ((attributes & 7) * 4 + dot.value));
    } else if (control & 1) {
        dot.color = grey(pouch_bus_read(&bus, 0xFF47), dot.value);
    } else {
        dot.value = 0;
        dot.color = grey(0, 0);
    }
    return dot;
}

static int height(uint8_t control)
{
    return control & 4 ? 16 : 8;
}

/* A sprite's dot at a place; value 0 if it has none there. */
static struct dot sprite_dot(uint8_t control, const uint8_t *colors, const uint8_t *sprite, int x, int y)
{
    struct dot dot = {0, 0, false};
    int column = x + 8 - sprite[1], line = y + 16 - sprite[0];
    uint8_t attributes = sprite[3];
    if (column < 0 || column > 7)
        return dot;
    if (attributes & 0x40)
        line = height(control) - 1 - line;
    if (attributes & 0x20)
        column = 7 - column;
    uint8_t tile = height(control) == 16 ? sprite[2] & 0xFE : sprite[2];
    dot.value = bits((uint16_t)(0x8000 + tile * 16 + line * 2), colour ? attributes >> 3 & 1 : 0, column);
    dot.first = (attributes & 0x80) != 0;
    if (dot.value != 0)
        dot.color = colour ? packed(colors + 3 * (32 + (attributes & 7) * 4 + dot.value)) : grey(pouch_bus_read(&bus, 0xFF48 + (attributes >> 4 & 1)), dot.value);
    return dot;
}

/* The first ten sprites on a line, the one in front first. */
static int on_line(const uint8_t *oam, uint8_t control, int y, const uint8_t **sprites)
{
    int count = 0;
    for (int at = 0; control & 2 && at < POUCH_OAM_LEN && count < SPRITES_ON_LINE; at += 4) {
        if (y + 16 < oam[at] || y + 16 >= oam[at] + height(control))
            continue;
        int place = count++;
        for (; !colour && place > 0 && sprites[place - 1][1] > oam[at + 1]; place--)
            sprites[place] = sprites[place - 1];
        sprites[place] = oam + at;
    }
    return count;
}

/* The line's pixels; whether the window is among them. */
static bool pixels(int y, uint16_t *row)
{
    uint8_t control = pouch_bus_read(&bus, 0xFF40), scroll_y = pouch_bus_read(&bus, 0xFF42), scroll_x = pouch_bus_read(&bus, 0xFF43);
    int window_y = pouch_bus_read(&bus, 0xFF4A), window_x = pouch_bus_read(&bus, 0xFF4B), window_line = numbers().window % 256;
    uint8_t colors[POUCH_COLORS_LEN], oam[POUCH_OAM_LEN];
    const uint8_t *sprites[SPRITES_ON_LINE];
    bool window = false;
    must(pouch_colors(bus.image, sizeof bus.image, colors, sizeof colors));
    must(pouch_oam(bus.image, sizeof bus.image, oam, sizeof oam));
    int count = on_line(oam, control, y, sprites);
    for (int x = 0; x < WIDTH; x++) {
        bool in_window = control & 0x20 && y >= window_y && x + 7 >= window_x;
        struct dot behind = in_window ? background(control, colors, (control & 0x40) != 0, x + 7 - window_x, window_line)
                                      : background(control, colors, (control & 0x08) != 0, (x + scroll_x) % 256, (y + scroll_y) % 256);
        struct dot shown = {0, 0, false};
        for (int at = 0; at < count && shown.value == 0; at++)
            shown = sprite_dot(control, colors, sprites[at], x, y);
        bool front = behind.value == 0 || (colour && !(control & 1)) || !(behind.first || shown.first);
        row[x] = shown.value != 0 && front ? shown.color : behind.color;
        window = window || in_window;
    }
    return window;
}

/* A line of a screen that is on: what a line's modes tell the bus, and its pixels. */
static void draw_line(uint16_t *row)
{
    uint8_t *image = bus.image;
    uint16_t enabled;
    must(pouch_set_scan_line(image, sizeof bus.image, next_line));
    must(pouch_set_lcd_status_mode(image, sizeof bus.image, 2));
    must(pouch_compare_ly_to_lyc(image, sizeof bus.image));
    must(pouch_set_lcd_status_mode(image, sizeof bus.image, 3));
    bool window = pixels(next_line, row);
    struct numbers n = numbers();
    if (window)
        must(pouch_set_window_line(image, sizeof bus.image, n.window + 1));
    must(pouch_set_cycles_counter(image, sizeof bus.image, n.counter + LINE_CYCLES));
    must(pouch_set_aux_cycles_counter(image, sizeof bus.image, next_line));
    must(pouch_set_lcd_status_mode(image, sizeof bus.image, 0));
    must(pouch_is_hdma_enabled(image, sizeof bus.image, &enabled));
    if (enabled) {
        pouch_bus_do_hdma(&bus);
        must(bus.number);
    }
}

/* A line of a screen that is off is white. The game turned it off; only the delay that the bus gave turns it on again. */
static void wait_line(uint16_t *row)
{
    int32_t delay = numbers().delay;
    for (int x = 0; x < WIDTH; x++)
        row[x] = 0x7FFF;
    if (delay <= 0)
        return;
    must(pouch_set_screen_enable_delay_cycles(bus.image, sizeof bus.image, delay > LINE_CYCLES / 4 ? delay - LINE_CYCLES / 4 : 0));
    if (delay <= LINE_CYCLES / 4) {
        must(pouch_set_screen_disabled(bus.image, sizeof bus.image, false));
        must(pouch_set_window_line(bus.image, sizeof bus.image, 0));
    }
}

/* All that a frame's end shows beside the picture. */
static void see(void)
{
    struct numbers n = numbers();
    uint8_t colors[POUCH_COLORS_LEN], oam[POUCH_OAM_LEN];
    must(pouch_colors(bus.image, sizeof bus.image, colors, sizeof colors));
    must(pouch_oam(bus.image, sizeof bus.image, oam, sizeof oam));
    add(&seen, n.disabled);
    add(&seen, n.line);
    add(&seen, n.signal);
    add(&seen, n.mode);
    add_number(&seen, n.delay);
    add_number(&seen, n.counter);
    add_number(&seen, n.aux);
    add_number(&seen, n.window);
    for (size_t at = 0; at < sizeof oam; at++)
        add(&seen, oam[at]);
    for (size_t at = 0; at < sizeof colors; at++)
        add(&seen, colors[at]);
    for (uint16_t index = 0xFF40; index <= 0xFF4B; index++)
        add(&seen, pouch_bus_read(&bus, index));
}

/* Draws the lines before `end`. At the last one the frame ends, and its sums are printed. */
static void draw(int end)
{
    uint16_t row[WIDTH];
    while (next_line < end && next_line < HEIGHT) {
        if (numbers().disabled)
            wait_line(row);
        else
            draw_line(row);
        for (int x = 0; x < WIDTH; x++) {
            add(&picture, (uint8_t)(row[x] >> 8));
            add(&picture, (uint8_t)row[x]);
        }
        next_line++;
    }
    if (next_line < HEIGHT)
        return;
    if (!numbers().disabled) {
        must(pouch_set_scan_line(bus.image, sizeof bus.image, HEIGHT));
        must(pouch_set_lcd_status_mode(bus.image, sizeof bus.image, 1));
        must(pouch_compare_ly_to_lyc(bus.image, sizeof bus.image));
        must(pouch_request_interrupt(bus.image, sizeof bus.image, POUCH_VBLANK));
        must(pouch_set_window_line(bus.image, sizeof bus.image, 0));
    }
    see();
    printf("%08lX %08lX\n", (unsigned long)picture, (unsigned long)seen);
    next_line = 0;
    picture = seen = 0;
}

static void fresh(bool in_colour)
{
    colour = in_colour;
    next_line = 0;
    picture = seen = 0;
    memset(&bus, 0, sizeof bus);
    memset(save, 0, sizeof save);
    bus.rom = rom, bus.rom_len = sizeof rom;
    bus.vram = vram, bus.vram_len = colour ? POUCH_VRAM_LEN_COLOUR : POUCH_VRAM_LEN_MONOCHROME;
    bus.wram = wram, bus.wram_len = colour ? POUCH_WRAM_LEN_COLOUR : POUCH_WRAM_LEN_MONOCHROME;
    bus.save = save, bus.save_len = sizeof save;
    bus.log = save_log, bus.log_len = sizeof save_log;
    bus.sound = sound;
    must(pouch_bus_fresh(&bus, POUCH_MBC1, 2, 2, colour));
}

int main(void)
{
    char line[256];
    unsigned a, b, c;
    for (unsigned address = 0; address < sizeof rom; address++)
        rom[address] = (uint8_t)(address + address / 256 * 3);
    rom[0x0147] = 1;
    rom[0x0149] = 2;
    fresh(false);
    while (fgets(line, sizeof line, stdin)) {
        if (sscanf(line, "N %x", &a) == 1)
            fresh(a == 1);
        else if (sscanf(line, "W %x %x", &a, &b) == 2)
            must(pouch_bus_write(&bus, (uint16_t)a, (uint8_t)b));
        else if (sscanf(line, "F %x %x %x", &a, &b, &c) == 3)
            for (unsigned k = 0; k < b; k++)
                must(pouch_bus_write(&bus, (uint16_t)(a + k), (uint8_t)(c + k * 37 + k / 16 * 11)));
        else if (sscanf(line, "L %x", &a) == 1)
            draw((int)a);
    }
    return 0;
}
