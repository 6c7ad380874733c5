/* Checks of pouch_bus.h: the journal holds the mark, and then every stored byte once and in order, whatever the mapper and the log's length and however badly
 * the file takes it; recovery from it gives the save, also from a journal longer than a log can be, or torn; and a journal of a version before 3.0 is never
 * taken for one of this version, nor one of this for one of those. */
#define _POSIX_C_SOURCE 200809L
#include "record.h"
#include <errno.h>
#include <fcntl.h>
#include <signal.h>
#include <stdio.h>
#include <stdlib.h>
#include <string.h>
#include <sys/resource.h>
#include <unistd.h>

/* pouch_bus.h reads by this: a read may give fewer bytes than there are, and a signal may end it. */
static size_t read_most = SIZE_MAX;
static unsigned signals;

static ssize_t read_some(int file, void *bytes, size_t len)
{
    if (signals > 0) {
        signals--;
        errno = EINTR;
        return -1;
    }
    return read(file, bytes, len < read_most ? len : read_most);
}

#define read read_some
#include <pouch_bus.h>
#undef read

enum { WRITES = 30000, MARK = POUCH_JOURNAL_MARK_LEN, RECORD = POUCH_RECORD_LEN, OLD = POUCH_OLD_RECORD_LEN };

/* The cartridges: with several save banks the list goes over all of them. */
static const struct cartridge {
    uint8_t kind;
    uint16_t banks;
    uint8_t code;
    size_t save_len;
} cartridges[] = {
    {POUCH_MBC1, 2, 2, POUCH_SAVE_LEN_CODE_2},   {POUCH_MBC5, 2, 2, POUCH_SAVE_LEN_CODE_2}, {POUCH_MBC5, 8, 3, POUCH_SAVE_LEN_CODE_3},
    {POUCH_MBC5, 512, 3, POUCH_SAVE_LEN_CODE_3}, {POUCH_MBC5, 2, 4, POUCH_SAVE_LEN_CODE_4}, {POUCH_MBC5, 512, 4, POUCH_SAVE_LEN_CODE_4},
};
static const struct cartridge *here = cartridges;

static uint8_t rom[512 * POUCH_ROM_BANK_LEN], vram[POUCH_VRAM_LEN_MONOCHROME], wram[POUCH_WRAM_LEN_MONOCHROME], save[POUCH_SAVE_LEN_CODE_4];
static uint8_t save_log[POUCH_LOG_LEN_MAX], sound[POUCH_SOUND_LEN];
static uint8_t journal[MARK + WRITES * RECORD + 1], records[WRITES * RECORD], recovered[sizeof save], stood[sizeof save], torn[sizeof journal];

static void require(bool holds, const char *what)
{
    if (holds)
        return;
    fprintf(stderr, "journal: %s; mapper %d, N %d, code %d\n", what, here->kind, here->banks, here->code);
    exit(1);
}

/* Write i of the test's list, and its record. */
static uint32_t at(uint32_t i)
{
    return (uint32_t)(i * 4093 % here->save_len);
}

static uint8_t value(uint32_t i)
{
    return (uint8_t)(i * 7);
}

static uint8_t write_number(struct pouch_bus *bus, uint32_t i)
{
    put_record(records + (size_t)i * RECORD, at(i), value(i));
    require(pouch_bus_write(bus, 0x4000, (uint8_t)(at(i) / 8192)) == POUCH_DONE, "the save's bank");
    return pouch_bus_write(bus, (uint16_t)(0xA000 + at(i) % 8192), value(i));
}

/* Lets files of this process grow to so many bytes: a longer write is cut there. */
static void allow(rlim_t len)
{
    struct rlimit limit;
    getrlimit(RLIMIT_FSIZE, &limit);
    limit.rlim_cur = len;
    require(setrlimit(RLIMIT_FSIZE, &limit) == 0, "setrlimit");
}

static void lend(struct pouch_bus *bus, size_t log_len)
{
    memset(bus, 1, sizeof *bus); /* whatever it held */
    pouch_bus_lend(
        bus, rom, (size_t)here->banks * POUCH_ROM_BANK_LEN, vram, sizeof vram, wram, sizeof wram, save, here->save_len, save_log, log_len, sound);
    memset(save, 0, sizeof save);
    memset(recovered, 0, sizeof recovered);
}

static void start(struct pouch_bus *bus)
{
    require(pouch_bus_fresh(bus, here->kind, here->banks, here->code, false) == POUCH_DONE, "fresh bus");
    require(pouch_bus_write(bus, 0x0000, 0x0A) == POUCH_DONE, "the save is on");
}

/* The file holds just these bytes. */
static bool holds(int file, const void *bytes, size_t len)
{
    return pread(file, torn, sizeof torn, 0) == (ssize_t)len && memcmp(torn, bytes, len) == 0;
}

/* Writes the list with a log of this length, keeping it after every `pace` writes and after number 2. Every `trouble` writes (0: never) the file takes only
 * a byte more, so that mark or record is cut and the next call must go on behind it. */
static void run(const char *path, size_t log_len, uint32_t writes, uint32_t pace, uint32_t trouble)
{
    struct pouch_bus bus;
    lend(&bus, log_len);
    int file = open(path, O_RDWR | O_CREAT | O_TRUNC | O_APPEND, 0644);
    require(file >= 0, path);
    require(pouch_bus_write(&bus, 0xC000, 1) == POUCH_OUT_OF_RANGE && !pouch_bus_keep(&bus, file), "a bus that is lent and not yet fresh is refused");
    require(holds(file, "", 0), "and nothing is written for it");
    start(&bus);
    for (uint32_t i = 0; i < writes; i++) {
        if (write_number(&bus, i) == POUCH_NO_ROOM) {
            require(pouch_bus_keep(&bus, file), "keep after number 2");
            require(write_number(&bus, i) == POUCH_DONE, "a write after keep");
        }
        require(bus.number == POUCH_DONE, "a write");
        if (trouble != 0 && i % trouble == 0) {
            allow((rlim_t)lseek(file, 0, SEEK_END) + 1);
            require(!pouch_bus_keep(&bus, file) && errno == EFBIG, "keep on a full file says so");
            allow(RLIM_INFINITY);
        }
        if (i % pace == 0)
            require(pouch_bus_keep(&bus, file), "keep");
    }
    require(pouch_bus_keep(&bus, file), "the last keep");
    size_t len = MARK + (size_t)writes * RECORD;
    require(pread(file, journal, sizeof journal, 0) == (ssize_t)len, "the journal's length");
    require(memcmp(journal, "PL4\n", MARK) == 0 && memcmp(journal, "\x50\x4C\x34\x0A", MARK) == 0, "the journal's mark");
    require(memcmp(journal + MARK, records, len - MARK) == 0, "the journal's bytes");
    require(pouch_bus_recover(recovered, here->save_len, journal, len) == POUCH_DONE, "recovery");
    require(memcmp(recovered, save, sizeof save) == 0, "the recovered save");
    close(file);
}

/* The journal of the last run as a failing machine may leave it: its first n bytes, and zeros for the rest. Recovery gives the writes whose records are whole
 * in them, but for a last one that ends in 0, which no one can tell from a torn one. Zeros within the journal's very last record count as its bytes. */
static void run_torn(size_t len)
{
    memset(stood, 0, sizeof stood);
    for (size_t n = 0; n < len; n++) {
        if (n > MARK && n % RECORD == 0) {
            uint32_t i = (uint32_t)(n / RECORD - 2);
            stood[at(i)] = value(i);
            if (journal[n - 1] == 0)
                continue;
        }
        memcpy(torn, journal, n);
        memset(torn + n, 0, len - n);
        if (n > len - RECORD) {
            const uint8_t *last = torn + len - RECORD;
            const uint32_t number = (uint32_t)last[0] << 24 | (uint32_t)last[1] << 16 | (uint32_t)last[2] << 8 | last[3];
            memset(recovered, 0, here->save_len);
            require(pouch_bus_recover(recovered, here->save_len, torn, len) == POUCH_DONE, "recovery where zeros begin in the last record");
            require(recovered[number >> 14 & 0x1FFFF] == (uint8_t)(number >> 6), "zeros within the last record count");
            continue;
        }
        memset(recovered, 0, here->save_len);
        require(pouch_bus_recover(recovered, here->save_len, torn, len) == POUCH_DONE, "recovery from a torn journal");
        require(memcmp(recovered, stood, here->save_len) == 0, "the save from a torn journal");
        require(pouch_journal_marked(torn, len), "a torn journal has the mark, or may have it");
    }
}

static void check_len(void)
{
    uint8_t last[MARK + 2 * RECORD + 3] = POUCH_JOURNAL_MARK;
    const size_t one = MARK + RECORD, two = one + RECORD;
    put_record(last + MARK, 5, 0x11);
    put_record(last + one, 6, 0x04); /* its last byte is 0: the value's last two bits are */
    require(pouch_journal_len(last, two) == two, "a last record that ends in 0 counts");
    for (size_t more = 1; more <= 3; more++)
        require(pouch_journal_len(last, two + more) == one, "zeros behind it make it doubtful");
    put_record(last + one, 6, 0x05);
    for (size_t more = 0; more <= 3; more++)
        require(pouch_journal_len(last, two + more) == two, "one that ends in no 0 stays");
    require(pouch_journal_len(last, one + 1) == one + 1 && pouch_journal_len(last + two, 3) == 0 && pouch_journal_len(last, 0) == 0,
            "part of a record, zeros, nothing");
    /* the mark alone, whole and torn */
    const struct {
        const char *bytes;
        size_t len, counted;
        bool marked;
    } starts[] = {
        {"", 0, 0, true},          {"P", 1, 1, true},         {"PL", 2, 2, true},          {"PL4", 3, 3, true},        {"PL4\n", 4, 4, true},
        {"P\0\0\0", 4, 4, true},   {"PL4\0", 4, 4, true},     {"PL\0", 3, 3, true},        {"\0\0", 2, 0, true},       {"PL\0\0\0", 5, 0, true},
        {"PL4\n\0", 5, 4, true},   {"PL4\n\0\0\0", 7, 4, true}, {"Q", 1, 1, false},        {"PM", 2, 2, false},        {"PL3\n", 4, 4, false},
        {"PL4\r", 4, 4, false},    {"PL\0\n", 4, 4, false},   {"\0L4\n", 4, 4, false},     {"\x84", 1, 1, false},      {"\x92\x34\x56", 3, 3, false},
        {"PL4\x01", 4, 4, false},
    };
    for (size_t i = 0; i < sizeof starts / sizeof *starts; i++) {
        uint8_t byte = 0x77;
        memcpy(torn, starts[i].bytes, starts[i].len);
        require(pouch_journal_len(torn, starts[i].len) == starts[i].counted, "how much of a beginning counts");
        require(pouch_journal_marked(torn, starts[i].len) == starts[i].marked, "whether a beginning is the mark's");
        require(pouch_bus_recover(&byte, 0, torn, starts[i].len) == (starts[i].marked ? POUCH_DONE : POUCH_DAMAGED), "recovery from a beginning");
        require(pouch_bus_recover(&byte, 1, torn, starts[i].len) == POUCH_WRONG_LENGTH, "a save's length comes first");
        require(pouch_bus_recover_old(&byte, 1, torn, starts[i].len) == POUCH_WRONG_LENGTH && byte == 0x77, "in an old journal too");
    }
}

/* A journal of `count` records of three bytes, as a version before 3.0 wrote it; and the save that they leave, in `stood`. */
static size_t write_old(uint32_t count)
{
    memset(stood, 0, sizeof stood);
    for (uint32_t i = 0; i < count; i++) {
        put_old_record(journal + (size_t)i * OLD, at(i) % 32768, value(i));
        stood[at(i) % 32768] = value(i);
    }
    return (size_t)count * OLD;
}

static int file_with(const char *path, const void *bytes, size_t len)
{
    int file = open(path, O_RDWR | O_CREAT | O_TRUNC | O_APPEND, 0644);
    require(file >= 0 && write(file, bytes, len) == (ssize_t)len, path);
    return file;
}

/* Refused by keep and by recovery, which change nothing, and taken by recovery from an old one. */
static void check_old(const char *path)
{
    const uint32_t counts[] = {1, 2, 3, 4, 5, 1023, 1024, 1025, 2048, 21845, 21846, WRITES};
    struct pouch_bus bus;
    lend(&bus, 300);
    start(&bus);
    for (size_t k = 0; k < sizeof counts / sizeof *counts; k++) {
        const size_t len = write_old(counts[k]);
        int file = file_with(path, journal, len);
        for (int again = 0; again < 2; again++) {
            require(write_number(&bus, 0) == POUCH_DONE, "a write");
            errno = 0;
            require(!pouch_bus_keep(&bus, file) && errno == EPROTO && bus.number == POUCH_DONE, "an old journal is not appended to");
        }
        require(holds(file, journal, len), "and stays as it is");
        close(file);
        memset(recovered, 0x33, sizeof recovered);
        require(!pouch_journal_marked(journal, len), "an old journal has no mark");
        for (size_t n = 1; n <= len && n < 12; n++)
            require(pouch_bus_recover(recovered, here->save_len, journal, n) == POUCH_DAMAGED, "the beginning of an old journal is refused");
        require(pouch_bus_recover(recovered, here->save_len, journal, len) == POUCH_DAMAGED, "an old journal is refused");
        for (size_t i = 0; i < sizeof recovered; i++)
            require(recovered[i] == 0x33, "and the save stays");
        memset(recovered, 0, sizeof recovered);
        require(pouch_bus_recover_old(recovered, here->save_len, journal, len) == POUCH_DONE, "recovery from an old journal");
        require(memcmp(recovered, stood, sizeof stood) == 0, "the save from an old journal");
        require(pouch_bus_recover_old(recovered, here->save_len, journal, len) == POUCH_DONE, "once more");
        require(memcmp(recovered, stood, sizeof stood) == 0, "gives the same");
    }
    /* what was refused is in the log, and goes into the next journal */
    int file = file_with(path, "", 0);
    require(pouch_bus_keep(&bus, file), "keep into an empty journal");
    require(pread(file, journal, sizeof journal, 0) == (ssize_t)(MARK + 2 * RECORD * (sizeof counts / sizeof *counts)), "nothing was lost");
    close(file);

    /* torn, as a failing machine leaves it: the old rule, by records of three bytes */
    const size_t len = write_old(40);
    memset(stood, 0, sizeof stood);
    for (size_t n = 0; n < len; n++) {
        if (n > 0 && n % OLD == 0) {
            stood[at((uint32_t)(n / OLD - 1)) % 32768] = journal[n - 1];
            if (journal[n - 1] == 0)
                continue;
        }
        memcpy(torn, journal, n);
        memset(torn + n, 0, len - n);
        memset(recovered, 0, sizeof recovered);
        require(pouch_bus_recover_old(recovered, here->save_len, torn, len) == POUCH_DONE, "recovery from a torn old journal");
        require(memcmp(recovered, stood, sizeof stood) == 0, "the save from a torn old journal");
        memset(recovered, 0, sizeof recovered);
        require(pouch_bus_recover_old(recovered, here->save_len, torn, n) == POUCH_DONE, "recovery from a cut old journal");
        require(memcmp(recovered, stood, sizeof stood) == 0, "the save from a cut old journal");
    }

    /* damaged: a first bit of 0, in the first part and in a later one, of which the parts before are in the save */
    const uint32_t places[] = {0, 7, 1023, 1024, 2999};
    for (size_t k = 0; k < sizeof places / sizeof *places; k++) {
        const size_t long_one = write_old(3000);
        journal[(size_t)places[k] * OLD] &= 0x7F;
        memset(recovered, 0, sizeof recovered);
        require(pouch_bus_recover_old(recovered, here->save_len, journal, long_one) == POUCH_DAMAGED, "a damaged record of an old journal");
        memset(stood, 0, sizeof stood);
        for (uint32_t i = 0; i < places[k] / 1024 * 1024; i++)
            stood[at(i) % 32768] = value(i);
        require(memcmp(recovered, stood, sizeof stood) == 0, "the parts before it are in the save");
    }
    /* an address that is not of this save */
    if (here->save_len < 32768) {
        put_old_record(journal, (uint32_t)here->save_len, 1);
        require(pouch_bus_recover_old(recovered, here->save_len, journal, OLD) == POUCH_DAMAGED, "an address beyond the save");
        put_old_record(journal, (uint32_t)here->save_len - 1, 1);
        require(pouch_bus_recover_old(recovered, here->save_len, journal, OLD) == POUCH_DONE, "the save's last address");
    }
}

/* A journal of this version, given to recovery from an old one, whole and cut: refused from the mark's third byte on, and the save stays. */
static void check_new_as_old(const char *path)
{
    run(path, 300, 100, 1, 0);
    const size_t len = MARK + 100 * RECORD;
    memset(recovered, 0x33, sizeof recovered);
    for (size_t n = 0; n <= len; n++) {
        require(pouch_bus_recover_old(recovered, here->save_len, journal, n) == (n < OLD ? POUCH_DONE : POUCH_DAMAGED), "a new journal is no old one");
        for (size_t i = 0; i < here->save_len; i += n == len ? 1 : 509)
            require(recovered[i] == 0x33, "and the save stays");
    }
}

/* A host that was killed while it wrote the mark, or that empties its journal, or opens it otherwise than it should. */
static void check_mark(const char *path)
{
    struct pouch_bus bus;
    uint8_t wanted[MARK + 3 * RECORD] = POUCH_JOURNAL_MARK;
    for (size_t there = 0; there <= MARK; there++)
        for (int stored = 0; stored < 2; stored++) {
            lend(&bus, 300);
            start(&bus);
            int file = file_with(path, POUCH_JOURNAL_MARK, there);
            if (stored)
                require(write_number(&bus, 0) == POUCH_DONE, "a write");
            if (there < MARK) { /* and the file is full again, at the mark's next byte */
                allow((rlim_t)there + 1);
                const bool kept = pouch_bus_keep(&bus, file);
                require(kept ? there == MARK - 1 && !stored : errno == EFBIG, "keep on a full file");
                require(holds(file, POUCH_JOURNAL_MARK, there + 1), "a byte more of the mark");
                allow(RLIM_INFINITY);
            }
            require(pouch_bus_keep(&bus, file), "keep behind a torn mark");
            memcpy(wanted + MARK, records, RECORD);
            require(holds(file, wanted, MARK + (stored ? RECORD : 0)), "the mark is completed, once");
            /* a host that empties the journal in the middle of a session */
            require(write_number(&bus, 1) == POUCH_DONE && pouch_bus_keep(&bus, file), "another write");
            require(ftruncate(file, 0) == 0 && write_number(&bus, 2) == POUCH_DONE && pouch_bus_keep(&bus, file), "a journal that was emptied");
            memcpy(wanted + MARK, records + 2 * RECORD, RECORD);
            require(holds(file, wanted, MARK + RECORD), "begins with the mark again");
            /* and in the middle of a record, of which the file took one, two or three bytes, or none */
            for (size_t part = 0; part < RECORD; part++) {
                const size_t len = (size_t)lseek(file, 0, SEEK_END);
                require(write_number(&bus, 1) == POUCH_DONE, "a write");
                allow((rlim_t)(len + part));
                require(!pouch_bus_keep(&bus, file) && errno == EFBIG, "keep on a full file");
                require(lseek(file, 0, SEEK_END) == (off_t)(len + part), "part of a record");
                allow(RLIM_INFINITY);
                require(ftruncate(file, 0) == 0 && write_number(&bus, 2) == POUCH_DONE && pouch_bus_keep(&bus, file), "a journal that was emptied");
                memcpy(wanted + MARK, records + RECORD, 2 * RECORD);
                require(holds(file, wanted, MARK + 2 * RECORD), "has whole records behind its mark");
            }
            close(file);
            /* one that goes on with another file, where something is new, and after a fresh start */
            for (int again = 0; again < 2; again++) {
                file = file_with(path, "", 0);
                require(pouch_bus_keep(&bus, file), "an empty journal");
                close(file);
                file = file_with(path, "\x92\x34\x56", OLD);
                require(pouch_bus_keep(&bus, file), "nothing is new, nothing is done");
                again ? start(&bus) : (void)write_number(&bus, 0);
                require(!pouch_bus_keep(&bus, file) && errno == EPROTO, "an old journal in the place of a new one");
                require(holds(file, "\x92\x34\x56", OLD), "stays as it is");
                close(file);
            }
        }
    /* a mark that is read byte by byte, and by a read that a signal ends */
    int slow = file_with(path, "", 0);
    read_most = 1;
    for (uint32_t i = 0; i < 3; i++) {
        require(write_number(&bus, i) == POUCH_DONE, "a write");
        signals = 1;
        require(!pouch_bus_keep(&bus, slow) && errno == EINTR, "a read that a signal ends");
        require(pouch_bus_keep(&bus, slow), "keep");
        if (i == 0)
            require(ftruncate(slow, 0) == 0, path); /* what was left in the log */
    }
    memcpy(wanted + MARK, records + RECORD, 2 * RECORD);
    require(holds(slow, wanted, MARK + 2 * RECORD), "the mark once, and the records");
    read_most = SIZE_MAX;
    close(slow);
    /* a bus that is lent and given an image, with no fresh start */
    uint8_t image[POUCH_IMAGE_LEN];
    require(pouch_clear_log(bus.image, sizeof bus.image) == POUCH_DONE, "the log is cleared");
    memcpy(image, bus.image, sizeof image);
    lend(&bus, 300);
    memcpy(bus.image, image, sizeof image);
    int given = file_with(path, "\x92\x34\x56", OLD);
    require(!pouch_bus_keep(&bus, given) && errno == EPROTO, "a bus that is lent anew looks again");
    close(given);
    /* zeros behind a beginning of the mark: recovery takes it, keep does not, as records would stand behind it */
    const char *const spoiled[] = {"P\0\0\0", "PL4\0", "\0\0\0\0", "PL3\n"};
    for (size_t i = 0; i < sizeof spoiled / sizeof *spoiled; i++) {
        int file = file_with(path, spoiled[i], MARK);
        start(&bus);
        require(!pouch_bus_keep(&bus, file) && errno == EPROTO && holds(file, spoiled[i], MARK), "a spoiled mark is not appended to");
        close(file);
    }
    /* opened for writing alone */
    int file = open(path, O_WRONLY | O_CREAT | O_TRUNC | O_APPEND, 0644);
    require(file >= 0, path);
    start(&bus);
    require(!pouch_bus_keep(&bus, file) && errno == EBADF, "a file that cannot be read");
    close(file);
    file = open(path, O_RDONLY);
    require(file >= 0 && !pouch_bus_keep(&bus, file) && errno == EBADF, "a file that cannot be written");
    require(lseek(file, 0, SEEK_END) == 0, "nothing was written");
    close(file);
    int ends[2];
    require(pipe(ends) == 0 && !pouch_bus_keep(&bus, ends[1]) && errno == ESPIPE, "a pipe is no journal");
    close(ends[0]);
    close(ends[1]);
    /* a descriptor without O_APPEND that was left at the file's start: records still go to the end */
    file = open(path, O_RDWR | O_TRUNC);
    require(file >= 0, path);
    for (uint32_t i = 0; i < 3; i++)
        require(lseek(file, 0, SEEK_SET) == 0 && write_number(&bus, i) == POUCH_DONE && pouch_bus_keep(&bus, file), "keep");
    memcpy(wanted + MARK, records, 3 * RECORD);
    require(holds(file, wanted, sizeof wanted), "the journal without O_APPEND");
    close(file);
}

int main(int count, char **words)
{
    require(count == 2, "usage: journal FILE");
    signal(SIGXFSZ, SIG_IGN);
    check_len();
    for (size_t i = 0; i < sizeof cartridges / sizeof *cartridges; i++) {
        here = &cartridges[i];
        for (size_t log_len = 4 * RECORD; log_len < 48; log_len++)
            run(words[1], log_len, 60, 1000, 0); /* kept after number 2 alone */
        run_torn(MARK + 60 * RECORD);
        run(words[1], 4095, 3000, 10, 7);
        run(words[1], POUCH_LOG_LEN_MAX, WRITES, 5000, 0);
        check_new_as_old(words[1]);
        check_old(words[1]);
        check_mark(words[1]);
    }
    puts("journal: every record once and in order, and recovered; old and new are told apart");
    return 0;
}
