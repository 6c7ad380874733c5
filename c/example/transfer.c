/* A transfer over the end of video memory, which once put tile bytes into a hero's name: colour, destination 9FF0, FF55 given 01 asks for 32 bytes where
 * 16 have room. 16 land, and the save is untouched. */
#include <pouch_bus.h>
#include <stdio.h>
#include <string.h>

static uint8_t rom[2 * POUCH_ROM_BANK_LEN], vram[POUCH_VRAM_LEN_COLOUR], wram[POUCH_WRAM_LEN_COLOUR], save[POUCH_SAVE_LEN_CODE_2];
static uint8_t save_log[300], sound[POUCH_SOUND_LEN];

/* Sixteen bytes from an index on, as the processor reads them. */
static void show(struct pouch_bus *bus, uint16_t index)
{
    uint8_t bytes[16];
    pouch_bus_read_block(bus, index, bytes, sizeof bytes);
    printf("  %04X ", index);
    for (size_t i = 0; i < sizeof bytes; i++)
        printf(" %02X", bytes[i]);
    printf("  ");
    for (size_t i = 0; i < sizeof bytes; i++)
        putchar(bytes[i] >= ' ' && bytes[i] <= '~' ? bytes[i] : '.');
    putchar('\n');
}

static void show_both(struct pouch_bus *bus, const char *when)
{
    printf("%s: the end of video memory, the start of the save\n", when);
    show(bus, 0x9FF0);
    show(bus, 0xA000);
}

int main(void)
{
    memcpy(save, "STELLA", 6);
    uint8_t was[sizeof save];
    memcpy(was, save, sizeof save);

    struct pouch_bus bus;
    pouch_bus_lend(&bus, rom, sizeof rom, vram, sizeof vram, wram, sizeof wram, save, sizeof save, save_log, sizeof save_log, sound);
    pouch_bus_fresh(&bus, POUCH_MBC1, 2, 2, true);
    pouch_bus_write(&bus, 0x0000, 0x0A); /* the mapper lets save writes in */
    uint8_t tile = 0xE0;
    for (uint16_t index = 0xC000; index < 0xC020; index++)
        pouch_bus_write(&bus, index, tile++);

    show_both(&bus, "before");
    pouch_bus_write(&bus, 0xFF51, 0xC0); /* from C000 */
    pouch_bus_write(&bus, 0xFF52, 0x00);
    pouch_bus_write(&bus, 0xFF53, 0x1F); /* to 9FF0 */
    pouch_bus_write(&bus, 0xFF54, 0xF0);
    uint8_t number = pouch_bus_write(&bus, 0xFF55, 0x01); /* 32 bytes */
    printf("FF55 given 01: %d\n", number);
    show_both(&bus, "after");

    uint16_t used;
    pouch_log_used(bus.image, sizeof bus.image, &used);
    bool untouched = memcmp(save, was, sizeof save) == 0 && used == 0;
    puts(untouched ? "all 8192 bytes of the save are as they were, and the log is empty" : "THE SAVE WAS CHANGED");
    return untouched ? 0 : 1;
}
