/* Many calls, to compare two builds of the library: every call of the header in turn with others, with any numbers, on bus after bus. Prints a digest of all that
 * they gave back and left, again and again, so that the first difference is near.
 *
 * entries.h is made from pouchrattle.h (c/test-aarch64): make_call, and every call declared with 64 bits for a narrower number. So the bits of a register or a
 * stack slot that such a number leaves unused hold anything here, as both processors' calling conventions allow. */
#include "lent.h"
#include "record.h"
#include <inttypes.h>

static uint64_t seed = 1, digest = 14695981039346656037u;

/* What a call may want besides the memories: numbers, places for results, blocks of its own. */
enum { PLACES = 16, BLOCKS = 2, OAM_LEN = 160 };
static uint64_t numbers[PLACES], results[PLACES];
static uint8_t rooms[BLOCKS][POUCH_BLOCK_LEN_MAX + 1];
static struct lent blocks[BLOCKS] = {{rooms[0], 0}, {rooms[1], 0}};

static uint64_t any(void)
{
    seed ^= seed << 13;
    seed ^= seed >> 7;
    seed ^= seed << 17;
    return seed * 2685821657736338717u;
}

static void mix(const void *bytes, size_t len)
{
    const uint8_t *at = bytes;
    for (uint64_t word; len >= sizeof word; at += sizeof word, len -= sizeof word) {
        memcpy(&word, at, sizeof word);
        digest = (digest ^ word) * 1099511628211u;
        digest ^= digest >> 32;
    }
    for (; len > 0; at++, len--)
        digest = (digest ^ *at) * 1099511628211u;
}

/* A number of 8 bits is often a small one. */
static uint64_t eight(uint64_t x)
{
    return x >> 8 & 1 ? x : x & ~(uint64_t)0xF8;
}

/* A number of 16 bits is most often an index: registers, save, mapper, screen, OAM, work memory, or any. */
static uint64_t sixteen(uint64_t x)
{
    const uint16_t from[] = {0xFF00, 0xA000, 0x0000, 0x8000, 0xFE00, 0xC000, 0x0000, 0xFF40}, below[] = {256, 8192, 32768, 8192, 256, 8192, 0, 64};
    const unsigned part = x >> 16 & 7;
    const uint16_t index = below[part] == 0 ? (uint16_t)x : (uint16_t)(from[part] + (uint16_t)x % below[part]);
    return (x & ~(uint64_t)0xFFFF) | index;
}

/* A number of 32 bits is most often a few cycles. */
static uint64_t thirty_two(uint64_t x)
{
    return (x >> 32 & 3) == 0 ? x : x & ~(uint64_t)0xFFFFFC00;
}

/* A bool is 0 or 1 in its eight bits. */
static uint64_t truth(uint64_t x)
{
    return x & ~(uint64_t)0xFE;
}

#include "entries.h"

static void cartridge(void)
{
    const uint8_t kind = (uint8_t)(any() % 4), codes[] = {0, 2, 3, 4}, sizes[] = {1, 7, 4, 9};
    const uint8_t code = kind == POUCH_MBC2 ? 0 : codes[any() % (kind == POUCH_MBC5 ? 4 : 3)];
    const uint16_t banks = (uint16_t)(2u << any() % sizes[kind]);
    const bool colour = any() % 2 != 0;
    const size_t log_len = any() % 8 == 0 ? any() % 9 : any() % 3 == 0 ? any() % 300 : any() % (POUCH_LOG_LEN_MAX + 1);
    start(kind, banks, code, colour, log_len);
    for (size_t i = 0; i < rom.len; i++)
        rom.at[i] = (uint8_t)any();
    /* Sound ones, for the converter: it reads a log as a whole. A call of `any` stands alone: compilers order those of one expression each in its own way. */
    for (size_t i = 0; i + POUCH_RECORD_LEN <= log_len; i += POUCH_RECORD_LEN) {
        const uint32_t end = any() % 500 == 0 ? 131072 : 32768;
        const uint32_t address = (uint32_t)(any() % end);
        put_record(log_.at + i, address, (uint8_t)any());
    }
}

/* A block of old records, one in 200 of them damaged, for the converter. */
static void old_records(struct lent *block)
{
    for (size_t i = 0; i + POUCH_OLD_RECORD_LEN <= block->len; i += POUCH_OLD_RECORD_LEN) {
        const uint32_t address = (uint32_t)(any() % 32768);
        put_old_record(block->at + i, address, (uint8_t)any());
        block->at[i] ^= any() % 200 == 0 ? 0x80 : 0;
    }
}

int main(void)
{
    unsigned times[8] = {0};
    for (int bus = 0; bus < 100; bus++) {
        cartridge();
        for (int k = 0; k < 10000; k++) {
            const uint64_t turn = any();
            for (int i = 0; i < PLACES; i++) {
                numbers[i] = any();
                results[i] = 0;
            }
            for (int i = 0; i < BLOCKS; i++)
                blocks[i].len = any() % 3 ? POUCH_COLORS_LEN : any() % 2 ? OAM_LEN : any() % 16 ? any() % 300 : any() % (POUCH_BLOCK_LEN_MAX + 2);
            if ((turn >> 40 & 7) == 0)
                old_records(&blocks[0]);
            /* Now and then something lent has another length for one call, or the image another byte. */
            struct lent *const odd = lent[turn % 7];
            const size_t len = odd->len;
            if ((turn >> 8 & 63) == 0)
                odd->len = turn >> 14 & 1 ? len + 1 : len / 2;
            uint8_t *const at = image.at + (turn >> 16) % POUCH_IMAGE_LEN;
            const uint8_t byte = *at;
            if ((turn >> 32 & 63) == 0)
                *at = (uint8_t)(turn >> 40);
            const uint64_t number = make_call(turn >> 48 & 1 ? (unsigned)(turn >> 49) : WRITE_BYTE);
            if (number > POUCH_OWED)
                *at = byte;
            odd->len = len;
            times[number % 8]++;
            mix(&number, sizeof number);
            mix(results, sizeof results);
            mix(LEND(image));
            for (int i = 0; i < BLOCKS; i++)
                mix(LEND(blocks[i]));
        }
        mix(arena, arena_len);
        printf("%d: %016" PRIx64 "\n", bus, digest);
    }
    for (int i = 0; i < 8; i++) {
        printf("answered by %d: %u\n", i, times[i]);
        failures += times[i] == 0; /* a number that no call gives is not compared */
    }
    return failures == 0 ? 0 : 1;
}
