/* The converters of logs, beside a model that is written from the documents' text and works bit by bit: at every limit of the lengths, with every bit of a record
 * damaged, on every record of the old form; and recovery, from a log of either form, beside the documents' rule for it.
 *
 * What is lent ends where no memory follows (a page that may not be touched), so a byte read or written behind it ends the program; before a target stand guards. */
#define _DEFAULT_SOURCE
#include "record.h"
#include <stdio.h>
#include <stdlib.h>
#include <string.h>
#include <sys/mman.h>
#include <unistd.h>

enum { GUARD = 0xC5, FILL = 0x5A, MOST = 3 * POUCH_SAVE_LEN_CODE_4, SHOWN = 50 };

static unsigned checks, failures;
static const char *at_work = "";

static void check(unsigned long got, unsigned long wanted, const char *what, int line)
{
    checks++;
    if (got != wanted && failures++ < SHOWN)
        fprintf(stderr, "line %d: %s: %s is %lu, not %lu\n", line, at_work, what, got, wanted);
}

#define IS(got, wanted) check((unsigned long)(got), (unsigned long)(wanted), #got, __LINE__)

static uint32_t any(void)
{
    static uint64_t seed = 1;
    seed = seed * 6364136223846793005u + 1442695040888963407u;
    return (uint32_t)(seed >> 33);
}

/* The documents. Most significant bit first: bit 1, address, value, and in the new form six 0 bits. */

struct form {
    size_t len;
    unsigned address, zeros; /* bits */
};

static const struct form old_form = {3, 15, 0}, new_form = {4, 17, 6};

static uint32_t bits(const uint8_t *bytes, unsigned at, unsigned width)
{
    uint32_t number = 0;
    for (; width > 0; width--, at++)
        number = number * 2 + (bytes[at / 8] >> (7 - at % 8)) % 2;
    return number;
}

static void put_bits(uint8_t *bytes, unsigned at, unsigned width, uint32_t number)
{
    for (; width > 0; width--, at++) {
        bytes[at / 8] &= (uint8_t)~(1u << (7 - at % 8));
        bytes[at / 8] |= (uint8_t)((number >> (width - 1)) % 2 << (7 - at % 8));
    }
}

static uint32_t address_of(const struct form *form, const uint8_t *record)
{
    return bits(record, 1, form->address);
}

static uint8_t value_of(const struct form *form, const uint8_t *record)
{
    return (uint8_t)bits(record, 1 + form->address, 8);
}

static void put(const struct form *form, uint8_t *record, uint32_t address, uint8_t value)
{
    put_bits(record, 0, 1, 1);
    put_bits(record, 1, form->address, address);
    put_bits(record, 1 + form->address, 8, value);
    put_bits(record, 9 + form->address, form->zeros, 0);
}

/* Damaged, without regard to a save. */
static bool is_damaged(const struct form *form, const uint8_t *record)
{
    return bits(record, 0, 1) == 0 || bits(record, 9 + form->address, form->zeros) != 0;
}

/* A converter: the number, and of how many bytes the result is; a refusal leaves the target. */
static uint8_t model(
    const struct form *from, const struct form *to, const uint8_t *source, size_t source_len, uint8_t *target, size_t target_len, uint16_t *value)
{
    const size_t count = source_len / from->len, len = count * to->len;
    *value = 0;
    if (source_len > 65535 || len > 65535 || target_len < len)
        return 4;
    for (size_t i = 0; i < count; i++)
        if (is_damaged(from, source + i * from->len))
            return 6;
    for (size_t i = 0; i < count; i++)
        if (address_of(from, source + i * from->len) >= 1u << to->address)
            return 6;
    for (size_t i = 0; i < count; i++)
        put(to, target + i * to->len, address_of(from, source + i * from->len), value_of(from, source + i * from->len));
    *value = (uint16_t)len;
    return 0;
}

/* Recovery, of either form: old, as document 01 has it, over a save of at most 32,768 bytes; new, as document 02 changed it. */
static uint8_t model_recover(const struct form *form, uint8_t *save, size_t save_len, const uint8_t *log, size_t log_len)
{
    const size_t count = log_len / form->len;
    const bool is_save = save_len == 0 || save_len == 512 || save_len == 8192 || save_len == 32768 || (form == &new_form && save_len == 131072);
    if (!is_save || log_len > 65535)
        return 4;
    for (size_t i = 0; i < count; i++)
        if (is_damaged(form, log + i * form->len) || address_of(form, log + i * form->len) >= save_len)
            return 6;
    for (size_t i = 0; i < count; i++)
        save[address_of(form, log + i * form->len)] = value_of(form, log + i * form->len);
    return 0;
}

/* Memory that ends where none follows. */
struct room {
    uint8_t *from, *end;
};

static struct room room(void)
{
    const size_t page = (size_t)sysconf(_SC_PAGESIZE), len = (MOST + page - 1) / page * page;
    uint8_t *from = mmap(NULL, len + page, PROT_READ | PROT_WRITE, MAP_PRIVATE | MAP_ANONYMOUS, -1, 0);
    if (from == MAP_FAILED || mprotect(from + len, page, PROT_NONE) != 0) {
        perror("convert");
        exit(1);
    }
    return (struct room){from, from + len};
}

static struct room sources, targets, saves;
static uint8_t log_[MOST], wanted[MOST], was[MOST];

/* The last target, and what the library said of it. */
static uint8_t *target, number;
static uint16_t value;

/* Converts the first bytes of log_ to a target of this length, and holds all that comes of it to the model. */
static void convert(const struct form *from, size_t source_len, size_t target_len)
{
    const struct form *to = from == &old_form ? &new_form : &old_form;
    enum { BEFORE = 64 };
    uint16_t model_value = 0;
    uint8_t *source = sources.end - source_len;
    memcpy(source, log_, source_len);
    target = targets.end - target_len;
    memset(target - BEFORE, GUARD, BEFORE);
    for (size_t i = 0; i < target_len; i++)
        wanted[i] = target[i] = (uint8_t)(FILL + i * 7);
    const uint8_t model_number = model(from, to, log_, source_len, wanted, target_len, &model_value);
    value = 0xEEEE;
    number = from == &old_form ? pouch_log_to_new(source, source_len, target, target_len, &value)
                               : pouch_log_to_old(source, source_len, target, target_len, &value);
    IS(number, model_number);
    IS(value, model_value);
    IS(number == POUCH_DONE || value == 0, true);
    IS(memcmp(target, wanted, target_len), 0);
    IS(memcmp(source, log_, source_len), 0);
    for (size_t i = 1; i <= BEFORE; i++)
        if (target[-(ptrdiff_t)i] != GUARD) {
            check(target[-(ptrdiff_t)i], GUARD, "a byte before the target", __LINE__);
            break;
        }
}

/* log_ becomes so many bytes of undamaged records, with addresses below `end`. */
static void fill(const struct form *form, size_t len, uint32_t end)
{
    for (size_t at = 0; at + form->len <= len; at += form->len)
        put(form, log_ + at, any() % end, (uint8_t)any());
    for (size_t at = len / form->len * form->len; at < len; at++)
        log_[at] = (uint8_t)any(); /* what is left of a cut record */
}

static void check_corner(void)
{
    at_work = "1234 given 56";
    memcpy(log_, "\x92\x34\x56\xFF\xFF", 5);
    convert(&old_form, 5, 4);
    IS(number == 0 && value == 4 && memcmp(target, "\x84\x8D\x15\x80", 4) == 0, true);
    memcpy(log_, "\x84\x8D\x15\x80\x12\x34\x56", 7);
    convert(&new_form, 7, 3);
    IS(number == 0 && value == 3 && memcmp(target, "\x92\x34\x56", 3) == 0, true);
}

/* Sources of these lengths, to targets from a byte too short to far longer than a log. */
static void check_length(const struct form *form, size_t len)
{
    const size_t result = len / form->len * (form == &old_form ? 4 : 3);
    const size_t more[] = {result, result + 1, result + 3, 65535, 65536, 65537, 70000, 131072};
    fill(form, len, 32768);
    if (result > 0)
        convert(form, len, result - 1);
    if (result > 0)
        convert(form, len, 0);
    for (size_t i = 0; i < sizeof more / sizeof *more; i++)
        convert(form, len, more[i]);
    if (len < form->len)
        return;
    /* a damaged record, first and last: 6, but 4 before it */
    for (int last = 0; last < 2; last++) {
        log_[last ? len / form->len * form->len - form->len : 0] &= 0x7F;
        convert(form, len, result);
        convert(form, len, result + 5);
        convert(form, len, result - 1);
    }
}

static void check_lengths(void)
{
    at_work = "lengths of old logs";
    for (size_t len = 0; len < 40; len++)
        check_length(&old_form, len);
    for (size_t len = 16382 * 3; len <= 16385 * 3; len++)
        check_length(&old_form, len);
    for (size_t len = 65530; len <= 65540; len++)
        check_length(&old_form, len);
    at_work = "lengths of new logs";
    for (size_t len = 0; len < 40; len++)
        check_length(&new_form, len);
    for (size_t len = 65524; len <= 65544; len++)
        check_length(&new_form, len);
    check_length(&new_form, 131072);
    at_work = "the limits, as the header has them";
    fill(&old_form, 16384 * 3, 32768);
    convert(&old_form, 16383 * 3, 65532);
    IS(number == 0 && value == 65532, true);
    convert(&old_form, 16384 * 3 - 1, 65532);
    IS(number == 0 && value == 65532, true);
    convert(&old_form, 16384 * 3, 131072);
    IS(number == 4 && value == 0, true);
    fill(&new_form, 65536, 32768);
    convert(&new_form, 65535, 49149);
    IS(number == 0 && value == 49149, true);
    convert(&new_form, 65536, 131072);
    IS(number == 4 && value == 0, true);
}

/* The last address of each save, and the first beyond it. */
static void check_addresses(void)
{
    const uint32_t addresses[] = {0, 1, 511, 512, 8191, 8192, 32767, 32768, 65535, 65536, 131071};
    at_work = "addresses";
    for (size_t i = 0; i < sizeof addresses / sizeof *addresses; i++)
        for (unsigned place = 0; place < 3; place++) {
            if (addresses[i] < 32768) {
                fill(&old_form, 9, 32768);
                put(&old_form, log_ + 3 * place, addresses[i], (uint8_t)any());
                convert(&old_form, 9, 12);
                IS(number == 0 && address_of(&new_form, target + 4 * place) == addresses[i], true);
            }
            fill(&new_form, 12, 32768);
            put(&new_form, log_ + 4 * place, addresses[i], (uint8_t)any());
            convert(&new_form, 12, 9);
            IS(number, addresses[i] < 32768 ? 0 : 6);
            if (number == 0)
                IS(address_of(&old_form, target + 3 * place), addresses[i]);
        }
}

/* Each bit of each of three records turned over, and each two bits of one; from records of every sort of bits. */
static void check_bits(const struct form *form)
{
    const struct {
        uint32_t address;
        uint8_t value;
    } records[] = {{0, 0}, {32767, 0xFF}, {0x1234, 0x56}, {0x5555, 0xAA}, {0x2AAA, 0x55}, {1, 1}, {16384, 128}};
    const unsigned width = (unsigned)form->len * 8;
    unsigned refused = 0, taken = 0;
    at_work = form == &old_form ? "bits of old records" : "bits of new records";
    for (size_t i = 0; i < sizeof records / sizeof *records; i++)
        for (unsigned place = 0; place < 3; place++)
            for (unsigned a = 0; a < width; a++)
                for (unsigned b = a; b < width; b++) {
                    fill(form, 3 * form->len, 32768);
                    uint8_t *record = log_ + place * form->len;
                    put(form, record, records[i].address, records[i].value);
                    record[a / 8] ^= (uint8_t)(0x80 >> a % 8);
                    if (a != b)
                        record[b / 8] ^= (uint8_t)(0x80 >> b % 8);
                    convert(form, 3 * form->len, 12);
                    number == 0 ? taken++ : refused++;
                }
    IS(taken > 0 && refused > 0, true);
    /* the first bit and the last six, in every way */
    if (form == &new_form)
        for (unsigned last = 0; last < 64; last++)
            for (unsigned first = 0; first < 2; first++) {
                fill(form, 12, 32768);
                put_bits(log_ + 4, 0, 1, first);
                put_bits(log_ + 4, 26, 6, last);
                convert(form, 12, 9);
                IS(number, first == 1 && last == 0 ? 0 : 6);
            }
}

/* Every record of the old form, to the new one and back. */
static void check_every_record(void)
{
    uint8_t record[POUCH_RECORD_LEN];
    unsigned wrong = 0;
    at_work = "every old record";
    for (uint32_t from = 0; from < 1u << 23;) {
        uint32_t count = 0;
        for (; count < 16383 && from < 1u << 23; count++, from++)
            put_old_record(log_ + 3 * count, from >> 8, (uint8_t)from);
        uint8_t *source = sources.end - 3 * count, *there = targets.end - 4 * count, *back = saves.end - 3 * count;
        memcpy(source, log_, 3 * count);
        memset(there, FILL, 4 * count);
        memset(back, FILL, 3 * count);
        IS(pouch_log_to_new(source, 3 * count, there, 4 * count, &value), POUCH_DONE);
        IS(value, 4 * count);
        for (uint32_t i = 0; i < count; i++) {
            put_record(record, (from - count + i) >> 8, (uint8_t)(from - count + i));
            wrong += memcmp(there + 4 * i, record, sizeof record) != 0;
        }
        IS(pouch_log_to_old(there, 4 * count, back, 3 * count, &value), POUCH_DONE);
        IS(value, 3 * count);
        IS(memcmp(back, log_, 3 * count), 0);
    }
    IS(wrong, 0);
}

/* Old to new to old, on logs of any length, the cut record at the end gone; and new to old to new where every address fits. */
static void check_there_and_back(void)
{
    static uint8_t first[65536];
    at_work = "there and back";
    for (unsigned i = 0; i < 600; i++) {
        const struct form *form = i % 2 == 0 ? &old_form : &new_form, *other = i % 2 == 0 ? &new_form : &old_form;
        const size_t most = i % 2 == 0 ? 16383 * 3 + 2 : 65535, len = i < 20 ? most - i / 2 % 6 : any() % (i % 20 == 0 ? most + 1 : 2000);
        const size_t whole = len / form->len;
        fill(form, len, 32768);
        memcpy(first, log_, len);
        convert(form, len, whole * other->len + any() % 9);
        IS(number == 0 && value == whole * other->len, true);
        memcpy(log_, target, value);
        convert(other, value, whole * form->len + any() % 9);
        IS(number == 0 && value == whole * form->len, true);
        IS(memcmp(target, first, whole * form->len), 0);
    }
    /* of new logs exactly those go back whose every address is below 32,768 */
    at_work = "new logs with any address";
    unsigned gone = 0;
    for (unsigned i = 0; i < 2000; i++) {
        const size_t count = 1 + any() % 6;
        fill(&new_form, count * 4, i % 3 == 0 ? 131072 : 40000);
        convert(&new_form, count * 4, 18);
        gone += number == 0;
    }
    IS(gone > 100 && gone < 1900, true);
}

/* Recovery from a log of this form, through the converter where it is an old one, beside the documents' rule. */
static void recover(const struct form *form, size_t save_len, size_t log_len)
{
    enum { BEFORE = 64 };
    uint8_t *save = saves.end - save_len, *source = sources.end - log_len;
    memset(save - BEFORE, GUARD, BEFORE);
    for (size_t i = 0; i < save_len; i++)
        wanted[i] = save[i] = (uint8_t)(FILL + i * 11);
    memcpy(was, wanted, save_len);
    memcpy(source, log_, log_len);
    const uint8_t model_number = model_recover(form, wanted, save_len, log_, log_len);
    if (form == &new_form)
        number = pouch_recover(save, save_len, source, log_len);
    else {
        target = targets.end - log_len / 3 * 4;
        number = pouch_log_to_new(source, log_len, target, log_len / 3 * 4, &value);
        if (number == POUCH_DONE)
            number = pouch_recover(save, save_len, target, value);
    }
    IS(number, model_number);
    IS(memcmp(save, wanted, save_len), 0);
    IS(number == 0 || memcmp(save, was, save_len) == 0, true);
    for (size_t i = 1; i <= BEFORE; i++)
        if (save[-(ptrdiff_t)i] != GUARD) {
            check(save[-(ptrdiff_t)i], GUARD, "a byte before the save", __LINE__);
            break;
        }
}

static void check_recovery(const struct form *form)
{
    const size_t lens[] = {0, 512, 8192, 32768, 131072};
    const size_t most = form == &old_form ? 16383 * 3 + 2 : 65535;
    at_work = form == &old_form ? "recovery from an old log" : "recovery from a new log";
    for (size_t k = 0; k < (form == &old_form ? 4u : 5u); k++) {
        const size_t save_len = lens[k];
        unsigned done = 0, refused = 0;
        for (unsigned i = 0; i < 300; i++) {
            const size_t len = i < 4 ? most - i : i < 20 ? i : any() % 600;
            const size_t count = len / form->len;
            fill(form, len, save_len == 0 ? 1 : (uint32_t)save_len);
            if (i % 3 == 1 && count > 0) { /* an address beyond the save, as far as the form has one */
                uint32_t beyond = (uint32_t)save_len + (i % 2 == 0 ? 0 : any() % 100000);
                if (beyond < 1u << form->address)
                    put(form, log_ + any() % count * form->len, beyond, (uint8_t)any());
            }
            if (i % 3 == 2 && count > 0) /* a bit turned over */
                log_[any() % len] ^= (uint8_t)(1u << any() % 8);
            recover(form, save_len, len);
            number == 0 ? done++ : refused++;
        }
        IS(done > 0 && refused > 0, true);
        /* each bit of the middle one of three records, its address the save's last and the next */
        for (unsigned bit = 0; bit < form->len * 8; bit++)
            for (unsigned next = 0; next < 2 && save_len > 0; next++) {
                fill(form, 3 * form->len, (uint32_t)save_len);
                put(form, log_ + form->len, ((uint32_t)save_len - 1 + next) % (1u << form->address), (uint8_t)any());
                recover(form, save_len, 3 * form->len);
                log_[form->len + bit / 8] ^= (uint8_t)(0x80 >> bit % 8);
                recover(form, save_len, 3 * form->len);
            }
    }
}

int main(void)
{
    sources = room();
    targets = room();
    saves = room();
    check_corner();
    check_lengths();
    check_addresses();
    check_bits(&old_form);
    check_bits(&new_form);
    check_every_record();
    check_there_and_back();
    check_recovery(&old_form);
    check_recovery(&new_form);
    printf("convert: %u checks, %u failed\n", checks, failures);
    return failures == 0 ? 0 : 1;
}
