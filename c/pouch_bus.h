/* Pouchrattle for C hosts, the short way: one struct that holds the image and what is lent, calls on it, and a journal that keeps the log safe.
 *
 *     struct pouch_bus bus;
 *     pouch_bus_lend(&bus, rom, sizeof rom, vram, sizeof vram, wram, sizeof wram, save, sizeof save, save_log, sizeof save_log, sound);
 *     pouch_bus_fresh(&bus, POUCH_MBC1, 2, 2, false);
 *     pouch_bus_write(&bus, 0xA000, 0x2A);
 *     pouch_bus_keep(&bus, journal);              once a frame, say: the log's new bytes are in the file
 *
 * A read gives the byte or word, any other call the number (enum pouch_number); bus.number has the number of the last call, also after a read. Nothing is
 * checked here: the library does that. Calls on the state alone need no short form: pouch_press(bus.image, sizeof bus.image, POUCH_A). */
#ifndef POUCH_BUS_H
#define POUCH_BUS_H

#include "pouchrattle.h"
#include <errno.h>
#include <string.h>
#include <sys/types.h>
#include <unistd.h>

/* A cast that C and C++ take without a warning. */
#ifdef __cplusplus
#define POUCH_SIZE(n) static_cast<size_t>(n)
#else
#define POUCH_SIZE(n) ((size_t)(n))
#endif

/* The memories belong to the host, and must outlive the bus. */
struct pouch_bus {
    uint8_t image[POUCH_IMAGE_LEN];
    uint8_t number;
    const uint8_t *rom;
    size_t rom_len;
    uint8_t *vram;
    size_t vram_len;
    uint8_t *wram;
    size_t wram_len;
    uint8_t *save;
    size_t save_len;
    uint8_t *log;
    size_t log_len;
    const uint8_t *sound; /* POUCH_SOUND_LEN bytes */
    size_t kept;          /* log bytes that are in the journal already */
    bool marked;          /* a journal was seen to begin with the mark */
};

/* Fills the struct: the memories, in the order of every call, and an image of zero bytes, which each call but pouch_bus_fresh refuses by 3. */
static inline void pouch_bus_lend(
    struct pouch_bus *bus, const uint8_t *rom, size_t rom_len, uint8_t *vram, size_t vram_len, uint8_t *wram, size_t wram_len, uint8_t *save,
    size_t save_len, uint8_t *log, size_t log_len, const uint8_t *sound)
{
    for (size_t i = 0; i < sizeof bus->image; i++)
        bus->image[i] = 0;
    bus->number = POUCH_DONE;
    bus->rom = rom;
    bus->rom_len = rom_len;
    bus->vram = vram;
    bus->vram_len = vram_len;
    bus->wram = wram;
    bus->wram_len = wram_len;
    bus->save = save;
    bus->save_len = save_len;
    bus->log = log;
    bus->log_len = log_len;
    bus->sound = sound;
    bus->kept = 0;
    bus->marked = false;
}

static inline uint8_t pouch_bus_fresh(struct pouch_bus *bus, uint8_t kind, uint16_t banks, uint8_t code, bool colour)
{
    bus->number = pouch_fresh(
        bus->image, sizeof bus->image, kind, banks, code, colour, bus->rom, bus->rom_len, bus->vram, bus->vram_len, bus->wram, bus->wram_len, bus->save,
        bus->save_len, bus->log, bus->log_len, bus->sound, POUCH_SOUND_LEN);
    if (bus->number == POUCH_DONE) {
        bus->kept = 0;
        bus->marked = false; /* the next journal may be another file */
    }
    return bus->number;
}

static inline uint8_t pouch_bus_read(struct pouch_bus *bus, uint16_t index)
{
    uint8_t value;
    bus->number = pouch_read_byte(
        bus->image, sizeof bus->image, bus->rom, bus->rom_len, bus->vram, bus->vram_len, bus->wram, bus->wram_len, bus->save, bus->save_len, bus->sound,
        POUCH_SOUND_LEN, index, &value);
    return value;
}

static inline uint16_t pouch_bus_read_word(struct pouch_bus *bus, uint16_t index)
{
    uint16_t value;
    bus->number = pouch_read_word(
        bus->image, sizeof bus->image, bus->rom, bus->rom_len, bus->vram, bus->vram_len, bus->wram, bus->wram_len, bus->save, bus->save_len, bus->sound,
        POUCH_SOUND_LEN, index, &value);
    return value;
}

static inline uint8_t pouch_bus_read_block(struct pouch_bus *bus, uint16_t index, uint8_t *out, size_t out_len)
{
    bus->number = pouch_read_block(
        bus->image, sizeof bus->image, bus->rom, bus->rom_len, bus->vram, bus->vram_len, bus->wram, bus->wram_len, bus->save, bus->save_len, bus->sound,
        POUCH_SOUND_LEN, index, out, out_len);
    return bus->number;
}

static inline uint8_t pouch_bus_write(struct pouch_bus *bus, uint16_t index, uint8_t byte)
{
    bus->number = pouch_write_byte(
        bus->image, sizeof bus->image, bus->rom, bus->rom_len, bus->vram, bus->vram_len, bus->wram, bus->wram_len, bus->save, bus->save_len, bus->log,
        bus->log_len, bus->sound, POUCH_SOUND_LEN, index, byte);
    return bus->number;
}

static inline uint8_t pouch_bus_write_word(struct pouch_bus *bus, uint16_t index, uint16_t word)
{
    bus->number = pouch_write_word(
        bus->image, sizeof bus->image, bus->rom, bus->rom_len, bus->vram, bus->vram_len, bus->wram, bus->wram_len, bus->save, bus->save_len, bus->log,
        bus->log_len, bus->sound, POUCH_SOUND_LEN, index, word);
    return bus->number;
}

/* The cycles that the block took. */
static inline uint16_t pouch_bus_do_hdma(struct pouch_bus *bus)
{
    uint16_t cycles;
    bus->number = pouch_do_hdma(
        bus->image, sizeof bus->image, bus->rom, bus->rom_len, bus->vram, bus->vram_len, bus->wram, bus->wram_len, bus->save, bus->save_len, bus->log,
        bus->log_len, bus->sound, POUCH_SOUND_LEN, &cycles);
    return cycles;
}

/* The journal: a file that begins with the mark, four bytes, and goes on with records of POUCH_RECORD_LEN bytes, as many as were stored since it was empty.
 *
 * Versions before 3.0 wrote no mark: their journals begin with a record of three bytes, whose first bit is 1, or are empty. The mark's first bit is 0. So the
 * two are told apart for good: pouch_bus_keep appends to no older journal, pouch_bus_recover takes none, and recovery of an older version refuses one of these
 * at its first record. For an older one: pouch_bus_recover_old, then replace the save file (README.md, "Keep the log"), and then empty the journal. */
#define POUCH_JOURNAL_MARK "PL4\n"
#define POUCH_JOURNAL_MARK_LEN 4

/* Sees that the file begins with the mark: an empty file gets it, one that ends within it, as a host killed there leaves it, gets the rest. Afterwards the
 * file's offset is at its end. */
static inline bool pouch_bus_begin(struct pouch_bus *bus, int journal)
{
    uint8_t there[POUCH_JOURNAL_MARK_LEN];
    size_t at = 0;
    ssize_t n = 1;
    if (lseek(journal, 0, SEEK_SET) < 0)
        return false;
    while (at < sizeof there && n > 0) { /* only a read of no bytes tells the end */
        n = read(journal, there + at, sizeof there - at);
        if (n < 0)
            return false;
        at += POUCH_SIZE(n);
    }
    if (memcmp(there, POUCH_JOURNAL_MARK, at) != 0) {
        errno = EPROTO;
        return false;
    }
    if (lseek(journal, 0, SEEK_END) < 0)
        return false;
    if (at < POUCH_JOURNAL_MARK_LEN)
        bus->kept -= bus->kept % POUCH_RECORD_LEN; /* of a record that was cut the part before went with what was emptied: behind the mark it stands whole */
    while (at < POUCH_JOURNAL_MARK_LEN) {
        n = write(journal, &POUCH_JOURNAL_MARK[at], POUCH_JOURNAL_MARK_LEN - at);
        if (n <= 0)
            return false;
        at += POUCH_SIZE(n);
    }
    return true;
}

/* Appends the log's new bytes to the journal, a regular file opened with O_RDWR | O_APPEND, and clears the log once over half of it is used and all of that is
 * in the journal. An empty file gets the mark first, also one that the host has emptied since; the mark is looked for at the first call after a lend or a fresh
 * start, and before bytes are appended.
 * true: every stored byte is in the file, and outlives this process; fsync makes it outlive the machine. false: bus.number refuses, or the file did not
 * take all of it (errno); nothing is lost, and the next call goes on with the first byte that is not there. errno EPROTO: the file is not empty and does not
 * begin with the mark, so it is an older version's journal or none at all; nothing is written to it. EBADF: it was opened without O_RDWR.
 * After number 2 of a write: keep, and write again. A log of four records or more then has room. */
static inline bool pouch_bus_keep(struct pouch_bus *bus, int journal)
{
    uint16_t used;
    bus->number = pouch_log_used(bus->image, sizeof bus->image, &used);
    if (bus->number != POUCH_DONE)
        return false;
    if (!bus->marked || bus->kept < used) {
        bus->marked = pouch_bus_begin(bus, journal);
        if (!bus->marked)
            return false;
    }
    while (bus->kept < used) {
        ssize_t n = write(journal, bus->log + bus->kept, used - bus->kept);
        if (n <= 0)
            return false;
        bus->kept += POUCH_SIZE(n);
    }
    if (used > bus->log_len / 2) {
        bus->number = pouch_clear_log(bus->image, sizeof bus->image);
        bus->kept = 0;
    }
    return bus->number == POUCH_DONE;
}

/* How much of a journal was written, if its records have so many bytes. */
static inline size_t pouch_journal_len_by(const uint8_t *journal, size_t len, size_t record_len)
{
    size_t end = len;
    while (end > 0 && journal[end - 1] == 0)
        end--;
    size_t next = (end + record_len - 1) / record_len * record_len;
    return next < len ? end / record_len * record_len : len;
}

/* How much of a journal was written. When the machine itself fails, a file system may show bytes that never arrived as zeros at the end. No record begins
 * with a 0, so where one would, the zeros go; and so does a record before them that ends in 0, as its last bytes may be such zeros too. Zeros that begin
 * within the last record cannot be told from its own bytes, and count. What fsync has brought to the disk stays, but for a last record that ends in 0 where such zeros follow.
 * The mark is as long as a record and does not end in 0. */
static inline size_t pouch_journal_len(const uint8_t *journal, size_t len)
{
    return pouch_journal_len_by(journal, len, POUCH_RECORD_LEN);
}

/* Whether a journal begins with the mark, as far as it goes: it is empty, or its first four bytes, or as many as there are, are the mark, or a beginning of
 * it and then zeros, as a machine that failed leaves them. Else an older version wrote it, or it is none. */
static inline bool pouch_journal_marked(const uint8_t *journal, size_t len)
{
    size_t at = 0, end = len < POUCH_JOURNAL_MARK_LEN ? len : POUCH_JOURNAL_MARK_LEN;
    while (at < end && journal[at] == POUCH_JOURNAL_MARK[at])
        at++;
    while (at < end && journal[at] == 0)
        at++;
    return at == end;
}

/* Recovery from a whole journal, however long: its parts are whole records, given one by one. Numbers as pouch_recover; 6 also where the mark is not there, and
 * the save is then unchanged. After 6 for a record the save holds the parts before the damaged one, so recover on a copy. */
static inline uint8_t pouch_bus_recover(uint8_t *save, size_t save_len, const uint8_t *journal, size_t journal_len)
{
    const size_t most = POUCH_LOG_LEN_MAX / POUCH_RECORD_LEN * POUCH_RECORD_LEN;
    uint8_t number = pouch_recover(save, save_len, journal, 0); /* the save's length, before all else */
    if (number == POUCH_DONE && !pouch_journal_marked(journal, journal_len)) /* before zeros go: one old record and zeros would be nothing */
        number = POUCH_DAMAGED;
    journal_len = pouch_journal_len(journal, journal_len);
    for (size_t at = POUCH_JOURNAL_MARK_LEN, part; number == POUCH_DONE && at < journal_len; at += part) {
        part = journal_len - at < most ? journal_len - at : most;
        number = pouch_recover(save, save_len, journal + at, part);
    }
    return number;
}

/* The same from a journal that a version before 3.0 wrote: no mark, and records of three bytes. Its parts are converted on the way, and each is short, as it
 * stands on the stack. A journal of this version is refused by 6, as the mark is no record. After 6 the save holds the parts before, of 1,024 records each:
 * recover on a copy. */
static inline uint8_t pouch_bus_recover_old(uint8_t *save, size_t save_len, const uint8_t *journal, size_t journal_len)
{
    uint8_t log[1024 * POUCH_RECORD_LEN];
    const size_t most = sizeof log / POUCH_RECORD_LEN * POUCH_OLD_RECORD_LEN;
    uint8_t number = pouch_recover(save, save_len, journal, 0);
    journal_len = pouch_journal_len_by(journal, journal_len, POUCH_OLD_RECORD_LEN);
    for (size_t at = 0, part; number == POUCH_DONE && at < journal_len; at += part) {
        uint16_t used;
        part = journal_len - at < most ? journal_len - at : most;
        number = pouch_log_to_new(journal + at, part, log, sizeof log, &used);
        if (number == POUCH_DONE)
            number = pouch_recover(save, save_len, log, used);
    }
    return number;
}

#undef POUCH_SIZE

#endif
