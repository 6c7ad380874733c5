/* A host that can be killed at any moment:
 *
 *     player FOLDER COUNT      plays COUNT save writes of the game, on the save FOLDER/hero.sav and its journal FOLDER/hero.journal
 *
 * It first brings the save up to date from the journal of the session before, however that ended, and then goes on where the save stands. Each line that it
 * prints says how many of the game's save writes are safe. Kill it, start it again. */
#define _POSIX_C_SOURCE 200809L
#include "game.h"
#include <pouch_bus.h>
#include <fcntl.h>
#include <stdio.h>
#include <stdlib.h>
#include <sys/stat.h>

static uint8_t rom[GAME_BANKS * POUCH_ROM_BANK_LEN], vram[POUCH_VRAM_LEN_COLOUR], wram[POUCH_WRAM_LEN_COLOUR], save[SAVE_LEN], sound[POUCH_SOUND_LEN];
static uint8_t save_log[96]; /* short, so that it is cleared often */

static void require(bool holds, const char *what)
{
    if (holds)
        return;
    perror(what);
    exit(1);
}

/* Reads a file to its end or until the buffer is full. */
static size_t read_all(int file, uint8_t *bytes, size_t len)
{
    size_t at = 0;
    ssize_t n = 0;
    while (at < len && (n = read(file, bytes + at, len - at)) > 0)
        at += (size_t)n;
    require(n >= 0, "read");
    return at;
}

/* Brings save and hero.sav up to date from the journal and empties it. A kill in between loses nothing: hero.sav is replaced as a whole, and the same
 * journal played over the new save changes nothing. */
static void recover(int folder, int journal)
{
    int old = openat(folder, "hero.sav", O_RDONLY);
    if (old >= 0) { /* the first time there is none: the save is zero bytes */
        require(read_all(old, save, sizeof save) == sizeof save, "hero.sav");
        close(old);
    }
    struct stat is;
    require(fstat(journal, &is) == 0, "hero.journal");
    size_t len = (size_t)is.st_size;
    uint8_t *bytes = malloc(len + 1);
    require(bytes != NULL && read_all(journal, bytes, len) == len, "hero.journal");
    bool marked = pouch_journal_marked(bytes, len); /* else a version before 3.0 wrote it */
    uint8_t number = marked ? pouch_bus_recover(save, sizeof save, bytes, len) : pouch_bus_recover_old(save, sizeof save, bytes, len);
    free(bytes);
    if (number != POUCH_DONE) {
        fprintf(stderr, "hero.journal: refused by %d; hero.sav is as it was\n", number);
        exit(1);
    }
    int new = openat(folder, "hero.sav.new", O_WRONLY | O_CREAT | O_TRUNC, 0644);
    require(new >= 0 && write(new, save, sizeof save) == (ssize_t)sizeof save && fsync(new) == 0, "hero.sav.new");
    close(new);
    require(renameat(folder, "hero.sav.new", folder, "hero.sav") == 0 && fsync(folder) == 0, "hero.sav");
    require(ftruncate(journal, 0) == 0 && fsync(journal) == 0, "hero.journal");
}

/* How many of its save writes the game has made, as the save shows it: the first byte tells the pass, and in it the writes are counted. */
static uint32_t place(void)
{
    if (save[0] == 0)
        return 0;
    uint32_t first = (save[0] - 1u) * SAVE_LEN, i = 1;
    while (i < SAVE_LEN && save[game_at(first + i)] == game_value(first + i))
        i++;
    return first + i;
}

/* Save write i, and what else a game does: time passes, tiles are drawn, banks are selected, and now and then a transfer runs over the end of video memory. */
static void step(struct pouch_bus *bus, uint32_t i)
{
    pouch_update_timer(bus->image, sizeof bus->image, i % 456);
    pouch_bus_write(bus, (uint16_t)(0xC000 + i % 0x1000), (uint8_t)i);
    pouch_bus_write(bus, (uint16_t)(0x8000 + i % 0x2000), (uint8_t)~i);
    if (i % 8 == 0) {
        const uint8_t registers[] = {0xC0, 0x00, 0x1F, 0xF0, 0x01}; /* from C000 to 9FF0, 32 bytes */
        for (uint16_t r = 0; r < sizeof registers; r++)
            pouch_bus_write(bus, (uint16_t)(0xFF51 + r), registers[r]);
    }
    pouch_bus_write(bus, 0x2100, (uint8_t)i);
    pouch_bus_write(bus, 0x4000, (uint8_t)(game_at(i) / SAVE_BANK_LEN));
    pouch_bus_write(bus, (uint16_t)(0xA000 + game_at(i) % SAVE_BANK_LEN), game_value(i));
}

int main(int count, char **words)
{
    if (count != 3) {
        fprintf(stderr, "usage: player FOLDER COUNT\n");
        return 2;
    }
    int folder = open(words[1], O_RDONLY | O_DIRECTORY);
    require(folder >= 0, words[1]);
    int journal = openat(folder, "hero.journal", O_RDWR | O_CREAT | O_APPEND, 0644);
    require(journal >= 0, "hero.journal");
    recover(folder, journal);

    struct pouch_bus bus;
    pouch_bus_lend(&bus, rom, sizeof rom, vram, sizeof vram, wram, sizeof wram, save, sizeof save, save_log, sizeof save_log, sound);
    pouch_bus_fresh(&bus, GAME_KIND, GAME_BANKS, GAME_CODE, true);
    pouch_bus_write(&bus, 0x0000, 0x0A); /* the mapper lets save writes in */

    uint32_t from = place(), end = from + (uint32_t)strtoul(words[2], NULL, 10);
    for (uint32_t i = from; i < end; i++) {
        step(&bus, i);
        if (bus.number != POUCH_DONE) {
            fprintf(stderr, "refused by %d\n", bus.number);
            return 1;
        }
        require(pouch_bus_keep(&bus, journal), "hero.journal");
        printf("%u\n", (unsigned)(i + 1));
        fflush(stdout);
    }
    return 0;
}
