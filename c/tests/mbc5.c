/* The mapper Mbc5, by the header's calls alone, beside a model that is written from Pan Docs: its registers as the game wrote them, the ROM bank's low byte
 * and ninth bit apart, nothing reduced before a bank is shown. Then descriptions and images at each limit, and recovery of what went through its banks. */
#include "record.h"
#include "refused.h"

enum { SAVE_BANK_LEN = 8192, SAVE_BANKS_MOST = 16 };

/* The model: four registers, and what save and log must hold */

struct registers {
    uint8_t low, ninth, ram;
    bool on;
};

static const struct registers at_start = {.low = 1};
static struct registers model;

static uint8_t kept[POUCH_SAVE_LEN_CODE_4], records[POUCH_LOG_LEN_MAX];
static size_t recorded;

static unsigned save_banks(void)
{
    const unsigned banks[] = {0, 0, 1, 4, 16};
    return banks[here.code];
}

static unsigned rom_bank(void)
{
    return (model.ninth * 256u + model.low) % here.banks;
}

static unsigned ram_bank(void)
{
    return save_banks() == 0 ? 0 : model.ram % save_banks();
}

static bool is_open(void)
{
    return model.on && save_banks() > 0;
}

/* Where in the save an index of A000..BFFF is. */
static uint32_t place(uint16_t index)
{
    return ram_bank() * SAVE_BANK_LEN + index % SAVE_BANK_LEN;
}

static void model_write(uint16_t index, uint8_t byte)
{
    switch (index >> 12) {
    case 0x0:
    case 0x1: model.on = byte % 16 == 0x0A; break;
    case 0x2: model.low = byte; break;
    case 0x3: model.ninth = byte % 2; break;
    case 0x4:
    case 0x5: model.ram = byte % 16; break;
    case 0xA:
    case 0xB:
        if (is_open()) {
            kept[place(index)] = byte;
            put_record(records + recorded, place(index), byte);
            recorded += POUCH_RECORD_LEN;
        }
    }
}

/* ROM and save, marked. A ROM bank has its number at four places, its first and last bytes among them; no two banks of the save are alike anywhere. */

static uint16_t rom_mark(unsigned bank)
{
    return (uint16_t)(0xB000 | bank);
}

static uint8_t save_mark(uint32_t at)
{
    return (uint8_t)(at * 13 + at / SAVE_BANK_LEN * 59 + 7); /* 59 is odd: no two of 256 banks are alike */
}

static void start_marked(uint16_t banks, uint8_t code, size_t log_len)
{
    const uint16_t places[] = {0x0000, 0x1555, 0x2AAA, 0x3FFE};
    start(POUCH_MBC5, banks, code, true, log_len);
    for (size_t at = 0; at < rom.len; at++)
        rom.at[at] = (uint8_t)(at + at / 256 * 3 + at / POUCH_ROM_BANK_LEN * 7);
    for (unsigned i = 0; i < banks * 4u; i++) {
        uint8_t *at = rom.at + (size_t)(i / 4) * POUCH_ROM_BANK_LEN + places[i % 4];
        at[0] = (uint8_t)(rom_mark(i / 4) >> 8);
        at[1] = (uint8_t)rom_mark(i / 4);
    }
    for (uint32_t at = 0; at < save.len; at++)
        kept[at] = save.at[at] = save_mark(at);
    model = at_start;
    recorded = 0;
}

/* Every register and every byte, from several states and in three ways */

enum way { BY_BYTE, BY_WORD, BY_MAPPER };

/* What is written, for the message of a failure. */
static struct {
    enum way way;
    unsigned state;
    uint16_t index;
    uint8_t byte;
} now;

static void holds(long got, long wanted, const char *what, int line)
{
    char of[80] = "";
    if (got != wanted)
        snprintf(of, sizeof of, "way %d, state %u, %04X given %02X: ", now.way, now.state, now.index, now.byte);
    check(got, wanted, what, of, line);
}

#define HOLDS(got, wanted) holds((long)(got), (long)(wanted), #got, __LINE__)

static uint8_t read_now(uint16_t index)
{
    uint8_t byte = 0xEE;
    uint16_t word = 0xEEEE;
    switch (now.way) {
    case BY_BYTE: HOLDS(pouch_read_byte(READS, index, &byte), POUCH_DONE); return byte;
    case BY_WORD: HOLDS(pouch_read_word(READS, index, &word), POUCH_DONE); return (uint8_t)word;
    default: HOLDS(pouch_mapper_read(LEND(image), LEND(rom), LEND(save), index, &byte), POUCH_DONE); return byte;
    }
}

/* The write, and the model's; `next` is a word's high byte. The mapper alone stores nothing, and answers what the bus would log. */
static void write_now(uint16_t index, uint8_t byte, uint8_t next)
{
    uint32_t answer = 0xEEEEEEEE;
    switch (now.way) {
    case BY_BYTE:
        HOLDS(wr(index, byte), POUCH_DONE);
        model_write(index, byte);
        break;
    case BY_WORD:
        HOLDS(pouch_write_word(WRITES, index, (uint16_t)(next << 8 | byte)), POUCH_DONE);
        model_write(index, byte);
        model_write((uint16_t)(index + 1), next);
        break;
    default:
        HOLDS(pouch_mapper_write(LEND(image), index, byte, &answer), POUCH_DONE);
        HOLDS(answer, index < 0x8000 || !is_open() ? 0 : 0x80000000 | place(index) << 14 | (uint32_t)byte << 6);
        if (index < 0x8000)
            model_write(index, byte);
    }
}

static uint16_t mark_at(uint16_t index)
{
    uint8_t first = read_now(index);
    return (uint16_t)(first << 8 | read_now((uint16_t)(index + 1)));
}

static uint8_t fresh_image[POUCH_IMAGE_LEN];

/* The image is a fresh one but for the mapper's numbers, reduced, and the log's use. */
static void check_image(void)
{
    uint8_t wanted[POUCH_IMAGE_LEN];
    memcpy(wanted, fresh_image, sizeof wanted);
    put_field(wanted, ROM_BANK, 9, rom_bank());
    put_field(wanted, RAM_BANK, RAM_BANK_WIDTH, ram_bank());
    put_field(wanted, ENABLED, 1, is_open());
    put_field(wanted, LOG_USE, 16, (uint32_t)recorded);
    HOLDS(memcmp(wanted, image.at, sizeof wanted), 0);
}

static void check_shown(void)
{
    uint8_t across[4];
    uint16_t word = 0xEEEE;
    HOLDS(mark_at(0x0000), rom_mark(0));
    HOLDS(mark_at(0x3FFE), rom_mark(0));
    HOLDS(mark_at(0x4000), rom_mark(rom_bank()));
    HOLDS(mark_at(0x7FFE), rom_mark(rom_bank()));
    HOLDS(read_now(0xA000), is_open() ? kept[place(0xA000)] : 0xFF);
    HOLDS(read_now(0xBFFF), is_open() ? kept[place(0xBFFF)] : 0xFF);
    HOLDS(pouch_read_word(READS, 0x3FFF, &word), POUCH_DONE);
    HOLDS(word, rom_mark(0) % 256 | rom_mark(rom_bank()) / 256 * 256);
    HOLDS(pouch_read_block(READS, 0x3FFE, across, sizeof across), POUCH_DONE);
    HOLDS(across[0] << 8 | across[1], rom_mark(0));
    HOLDS(across[2] << 8 | across[3], rom_mark(rom_bank()));
}

/* Writes at both ends of A000..BFFF land where the model has them, each with its record, and nowhere else. */
static void check_stored(void)
{
    const uint16_t ends[] = {0xA000, 0xBFFF};
    for (int i = 0; i < 2; i++)
        write_now(ends[i], (uint8_t)~kept[place(ends[i])], (uint8_t)(now.byte + i));
    check_image();
    HOLDS(memcmp(save.at, kept, save.len), 0);
    HOLDS(memcmp(log_.at, records, recorded), 0);
    HOLDS(log_.at[recorded], FILL);
    /* and back to the marks */
    const uint16_t written[] = {0xA000, 0xA001, 0xBFFF};
    for (int i = 0; i < 3 && save.len > 0; i++)
        kept[place(written[i])] = save.at[place(written[i])] = save_mark(place(written[i]));
    memset(log_.at, FILL, recorded);
    recorded = 0;
}

/* The two windows as a whole, and what stands around the save's. */
static void check_windows(void)
{
    static uint8_t out[2 * POUCH_ROM_BANK_LEN];
    IS(pouch_read_block(READS, 0x0000, out, sizeof out), POUCH_DONE);
    IS(memcmp(out, rom.at, POUCH_ROM_BANK_LEN), 0);
    IS(memcmp(out + POUCH_ROM_BANK_LEN, rom.at + (size_t)rom_bank() * POUCH_ROM_BANK_LEN, POUCH_ROM_BANK_LEN), 0);
    IS(wr(0x9FFF, 0x11) | wr(0xC000, 0x22), POUCH_DONE);
    IS(pouch_read_block(READS, 0x9FFF, out, 1 + SAVE_BANK_LEN + 1), POUCH_DONE);
    IS(out[0] == 0x11 && out[1 + SAVE_BANK_LEN] == 0x22, true);
    IS(is_open() ? memcmp(out + 1, kept + place(0xA000), SAVE_BANK_LEN) == 0 : all_are(out + 1, SAVE_BANK_LEN, 0xFF), true);
}

static const struct {
    uint8_t enable, low, ninth, ram;
} states[] = {{0x00, 0x01, 0x00, 0x00}, {0x0A, 0x00, 0x00, 0x00}, {0x0A, 0xFF, 0x01, 0x03}, {0xFA, 0x5A, 0xFF, 0x0E}, {0xA0, 0x80, 0x01, 0xF4}};

static void check_registers(uint16_t banks, uint8_t code)
{
    const uint16_t indexes[] = {0x0000, 0x1FFF, 0x2000, 0x2FFF, 0x3000, 0x3FFF, 0x4000, 0x5FFF, 0x6000, 0x7FFF};
    bool shown[512] = {false}, opened[SAVE_BANKS_MOST] = {false};
    start_marked(banks, code, 100);
    memcpy(fresh_image, image.at, sizeof fresh_image);
    for (now.way = BY_BYTE; now.way <= BY_MAPPER; now.way++)
        for (now.state = 0; now.state < sizeof states / sizeof *states; now.state++) {
            uint8_t first_image[POUCH_IMAGE_LEN];
            memcpy(image.at, fresh_image, sizeof fresh_image);
            model = at_start;
            const uint8_t bytes[] = {states[now.state].enable, states[now.state].low, states[now.state].ninth, states[now.state].ram};
            for (uint16_t i = 0; i < sizeof bytes; i++)
                write_now((uint16_t)(0x1000 * (i + 1)), bytes[i], bytes[i]);
            check_image();
            check_windows();
            memcpy(first_image, image.at, sizeof first_image);
            const struct registers first = model;
            for (unsigned i = 0; i < 10 * 256; i++) {
                memcpy(image.at, first_image, sizeof first_image);
                model = first;
                now.index = indexes[i / 256];
                now.byte = (uint8_t)i;
                write_now(now.index, now.byte, (uint8_t)(now.byte * 167 + 13));
                check_image();
                check_shown();
                shown[mark_at(0x4000) % 512] = true;
                opened[ram_bank()] |= is_open();
                check_stored();
            }
        }
    /* every bank was shown, 0 too */
    for (unsigned bank = 0; bank < 512; bank++)
        IS(shown[bank], bank < banks);
    for (unsigned bank = 0; bank < SAVE_BANKS_MOST; bank++)
        IS(opened[bank], bank < save_banks());
}

/* The corners, without the model */
static void check_corners(void)
{
    const struct {
        uint16_t banks, index;
        uint8_t byte;
        uint16_t shown; /* after this write and those of the rows before */
    } selects[] = {
        {512, 0x6000, 0x01, 1},   {512, 0x2000, 0x00, 0},   {512, 0x3000, 0x01, 256}, {512, 0x2FFF, 0xFF, 511},
        {512, 0x3FFF, 0xFE, 255}, {512, 0x3FFF, 0xFF, 511}, {512, 0x7FFF, 0x00, 511}, {256, 0x3000, 0x01, 1},
        {256, 0x2000, 0xFF, 255}, {256, 0x2000, 0x00, 0},   {8, 0x2000, 0x0F, 7},     {8, 0x3000, 0x01, 7},
        {8, 0x2000, 0x08, 0},     {2, 0x2000, 0x02, 0},     {2, 0x3000, 0x01, 0},     {2, 0x2000, 0x03, 1},
    };
    for (unsigned i = 0; i < sizeof selects / sizeof *selects; i++) {
        if (i == 0 || selects[i].banks != here.banks) {
            start_marked(selects[i].banks, 0, 0);
            IS(rd(0x4001), 1);
        }
        IS(wr(selects[i].index, selects[i].byte), POUCH_DONE);
        IS(rd(0x4000) << 8 | rd(0x4001), rom_mark(selects[i].shown));
    }
    /* the save's bank by code: none, always 0, modulo 4, modulo 16 */
    const uint8_t bytes[] = {0, 1, 3, 4, 8, 0x0F, 0x13, 0xFE}, of_four[] = {0, 1, 3, 0, 0, 3, 3, 2}, of_sixteen[] = {0, 1, 3, 4, 8, 15, 3, 14};
    const uint8_t codes[] = {0, 2, 3, 4};
    for (unsigned i = 0; i < 4 * sizeof bytes; i++) {
        const uint8_t code = codes[i / sizeof bytes], bank = code == 4 ? of_sixteen[i % sizeof bytes] : code == 3 ? of_four[i % sizeof bytes] : 0;
        start_marked(4, code, POUCH_RECORD_LEN);
        IS(rd(0xA000), 0xFF); /* off at the start */
        IS(wr(0xA000, 0x12), POUCH_DONE);
        IS(ask(pouch_log_used), 0);
        IS(wr(0x4000, bytes[i % sizeof bytes]), POUCH_DONE);
        IS(wr(0x0000, 0x0A), POUCH_DONE);
        IS(field(RAM_BANK, RAM_BANK_WIDTH), bank);
        IS(field(ENABLED, 1), code != 0);
        IS(rd(0xA000), code == 0 ? 0xFF : save_mark(bank * SAVE_BANK_LEN));
        IS(wr(0xBFFF, 0x12), POUCH_DONE);
        IS(ask(pouch_log_used), code == 0 ? 0 : POUCH_RECORD_LEN);
        IS(wr(0x0000, 0x0B), POUCH_DONE);
        IS(rd(0xBFFF), 0xFF);
        for (uint32_t at = 0; at < save.len; at++)
            check(save.at[at], at == (uint32_t)bank * SAVE_BANK_LEN + 0x1FFF ? 0x12 : save_mark(at), "a byte of the save", "", __LINE__);
    }
}

/* What a transfer reads is what the mapper shows. */
static void check_transfers(void)
{
    const uint8_t from_7ff0[] = {0x7F, 0xF0, 0x00, 0x00, 0x00}; /* FF51..FF55: 16 bytes to 8000 */
    start_marked(512, 3, 0);
    IS(wr(0x2000, 300 % 256) | wr(0x3000, 300 / 256) | wr(0x0000, 0x0A) | wr(0x4000, 2), POUCH_DONE);
    for (uint16_t i = 0; i < sizeof from_7ff0; i++)
        IS(wr((uint16_t)(0xFF51 + i), from_7ff0[i]), POUCH_DONE);
    IS(memcmp(vram.at, rom.at + 300 * POUCH_ROM_BANK_LEN + 0x3FF0, 16), 0);
    IS(wr(0xFF46, 0xA0), POUCH_DONE);
    IS(memcmp(image.at, save.at + 2 * SAVE_BANK_LEN, POUCH_OAM_LEN), 0);
    IS(wr(0x0000, 0x00) | wr(0xFF46, 0xBF), POUCH_DONE);
    IS(all_are(image.at, POUCH_OAM_LEN, 0xFF), true);
    start_marked(2, 4, 0);
    IS(wr(0x0000, 0x0A) | wr(0x4000, 0x0D) | wr(0xFF46, 0xBF), POUCH_DONE);
    IS(memcmp(image.at, save.at + 13 * SAVE_BANK_LEN + 0x1F00, POUCH_OAM_LEN), 0);
}

static void check_descriptions(void)
{
    const uint16_t no_banks[] = {0, 1, 3, 6, 511, 513, 1024, 65535};
    for (uint16_t banks = 2; banks <= 512; banks = (uint16_t)(banks * 2)) {
        start_marked(banks, banks % 3 == 1 ? 2 : 3, 0);
        REFUSED(fresh(4, banks, 2, true), POUCH_OUT_OF_RANGE);
        REFUSED(fresh(POUCH_MBC5, banks, 1, true), POUCH_OUT_OF_RANGE);
        REFUSED(fresh(POUCH_MBC5, banks, 5, true), POUCH_OUT_OF_RANGE);
        REFUSED(fresh(POUCH_MBC5, banks, 0, true), POUCH_WRONG_LENGTH); /* there is a save */
        REFUSED(fresh(POUCH_MBC5, banks, 4, true), POUCH_WRONG_LENGTH); /* of another length */
        lay_out(POUCH_MBC5, banks, 4, true, 0);
        for (uint8_t kind = POUCH_ROM_ONLY; kind < POUCH_MBC5; kind++)
            REFUSED(fresh(kind, banks, 4, true), POUCH_OUT_OF_RANGE);
        REFUSED(fresh(POUCH_MBC5, banks, 3, true), POUCH_WRONG_LENGTH);
        IS(fresh(POUCH_MBC5, banks, 4, true), POUCH_DONE);
        save.len--;
        REFUSED(wr(0xC000, 1), POUCH_WRONG_LENGTH);
        REFUSED(fresh(POUCH_MBC5, banks, 4, true), POUCH_WRONG_LENGTH);
        save.len += 2;
        REFUSED(wr(0xC000, 1), POUCH_WRONG_LENGTH);
        save.len--;
        IS(wr(0xC000, 1), POUCH_DONE);
    }
    for (unsigned i = 0; i < sizeof no_banks / sizeof *no_banks; i++) {
        lay_out(POUCH_MBC5, no_banks[i] <= 512 ? no_banks[i] : 512, 3, true, 0);
        REFUSED(fresh(POUCH_MBC5, no_banks[i], 3, true), POUCH_OUT_OF_RANGE);
    }
}

/* Images: the mapper's bits set in them directly */

/* Calls of each sort refuse the image as it stands, give 0, and leave image, save, log and all else. */
static void all_refuse(uint8_t number)
{
    uint8_t byte = 0xEE;
    uint16_t word = 0xEEEE;
    uint32_t answer = 0xEEEEEEEE;
    REFUSED(pouch_read_byte(READS, 0x4000, &byte), number);
    IS(byte, 0);
    byte = 0xEE;
    REFUSED(pouch_mapper_read(LEND(image), LEND(rom), LEND(save), 0xA000, &byte), number);
    IS(byte, 0);
    REFUSED(pouch_log_used(LEND(image), &word), number);
    IS(word, 0);
    REFUSED(pouch_mapper_write(LEND(image), 0x2000, 2, &answer), number);
    IS(answer, 0);
    REFUSED(wr(0x2000, 2), number);
    REFUSED(wr(0xA000, 2), number);
    REFUSED(pouch_write_word(WRITES, 0xA000, 2), number);
    REFUSED(pouch_update_timer(LEND(image), 4), number);
    REFUSED(pouch_clear_log(LEND(image)), number);
}

/* Puts the field into the image for one look: taken, or refused by 3. */
static void put_in(unsigned at, unsigned width, uint32_t to, bool taken)
{
    const uint32_t was = field(at, width);
    put_field(image.at, at, width, to);
    if (!taken)
        all_refuse(POUCH_OUT_OF_RANGE);
    else {
        IS(ask(pouch_log_used), POUCH_RECORD_LEN * (save_banks() > 0));
        IS(rd(0x4000) << 8 | rd(0x4001), rom_mark(field(ROM_BANK, 9)));
        IS(rd(0xA000), field(ENABLED, 1) ? save.at[field(RAM_BANK, RAM_BANK_WIDTH) * SAVE_BANK_LEN] : 0xFF);
    }
    put_field(image.at, at, width, was);
}

static void check_images(uint16_t banks, uint8_t code)
{
    start_marked(banks, code, 100);
    IS(wr(0x0000, 0x0A) | wr(0xA000, 0x12), POUCH_DONE); /* a record, where there is a save */
    put_in(ROM_BANK, 9, 0, true);
    put_in(ROM_BANK, 9, banks - 1u, true);
    for (unsigned past = banks; past < 512; past *= 2)
        put_in(ROM_BANK, 9, past, false);
    put_in(ROM_BANK, 9, 511, banks == 512);
    for (unsigned bank = 0; bank < SAVE_BANKS_MOST; bank++)
        put_in(RAM_BANK, RAM_BANK_WIDTH, bank, bank == 0 || bank < save_banks());
    put_in(ENABLED, 1, 0, true);
    put_in(ENABLED, 1, 1, code != 0);
    put_in(BANKING, 1, 1, false);
    for (unsigned high = 1; high < 4; high++)
        put_in(HIGH, 2, high, false);
    for (unsigned bit = 0; bit < ZEROS_WIDTH; bit++)
        put_in(ZEROS + bit, 1, 1, false);
    for (unsigned other = 1; other < 8; other += other == 1 ? 4 : 1) /* codes 1, 5, 6, 7 */
        put_in(CODE, CODE_WIDTH, other, false);
    put_in(LOG_BANKS, 4, 0, false);
    for (unsigned log = 10; log < 16; log++)
        put_in(LOG_BANKS, 4, log, false);
    image.len = POUCH_IMAGE_LEN - 1; /* as before version 2.0 */
    all_refuse(POUCH_WRONG_LENGTH);
    image.len = POUCH_IMAGE_LEN + 1;
    all_refuse(POUCH_WRONG_LENGTH);
}

/* Log2 N from 1 to 9, each put into the image of another N, with the ROM that belongs to it. */
static void check_sizes(void)
{
    start_marked(512, 0, 0);
    for (unsigned log = 1; log < 10; log++) {
        put_field(image.at, LOG_BANKS, 4, log);
        rom.len = (size_t)POUCH_ROM_BANK_LEN << log;
        put_in(ROM_BANK, 9, (1u << log) - 1, true);
        if (log < 9)
            put_in(ROM_BANK, 9, 1u << log, false);
        rom.len /= 2;
        uint8_t byte = 0xEE;
        REFUSED(pouch_read_byte(READS, 0x0000, &byte), POUCH_WRONG_LENGTH);
        IS(byte, 0);
    }
}

/* A game saves through all banks, and is killed: whatever part of the log is there, recovery gives the save after the last write whose record is whole. */
static void check_recovery(uint16_t banks, uint8_t code)
{
    static uint8_t first[sizeof kept], stood[sizeof kept], recovered[sizeof kept];
    start_marked(banks, code, POUCH_LOG_LEN_MAX);
    memcpy(first, save.at, save.len);
    memcpy(stood, save.at, save.len);
    for (unsigned i = 0; i < 800; i++) {
        const uint8_t byte = (uint8_t)(i * 29);
        now.way = i % 3 == 0 ? BY_WORD : BY_BYTE;
        now.state = i;
        switch (i % 7) {
        case 0: write_now(0x0000, i % 70 == 63 ? 0x00 : 0x0A, 0x0A); break;
        case 1: write_now((uint16_t)(0x2000 + i % 0x2000), byte, byte); break;
        case 2: write_now((uint16_t)(0x4000 + i % 0x1000), (uint8_t)(i / 7), (uint8_t)(i / 7)); break;
        case 3: write_now(i % 2 == 0 ? 0x9FFF : 0xBFFF, byte, (uint8_t)~byte); break;
        default: write_now((uint16_t)(0xA000 + i * 3001 % SAVE_BANK_LEN), byte, (uint8_t)~byte);
        }
    }
    IS(ask(pouch_log_used), recorded);
    IS(recorded > 400 * POUCH_RECORD_LEN, code != 0);
    IS(memcmp(log_.at, records, recorded), 0);
    IS(memcmp(save.at, kept, save.len), 0);
    for (size_t n = 0; n <= recorded; n++) {
        if (n > 0 && n % POUCH_RECORD_LEN == 0) {
            const uint8_t *last = records + n - POUCH_RECORD_LEN;
            stood[(last[0] & 0x7F) << 10 | last[1] << 2 | last[2] >> 6] = (uint8_t)(last[2] << 2 | last[3] >> 6);
        }
        memcpy(recovered, first, save.len);
        IS(pouch_recover(recovered, save.len, log_.at, n), POUCH_DONE);
        IS(memcmp(recovered, stood, save.len), 0);
    }
    IS(memcmp(recovered, save.at, save.len), 0);
}

int main(void)
{
    const uint16_t banks[] = {2, 8, 256, 512};
    const uint8_t codes[] = {0, 2, 3, 4};
    check_corners();
    check_transfers();
    check_descriptions();
    check_sizes();
    for (unsigned i = 0; i < 16; i++) {
        check_registers(banks[i / 4], codes[i % 4]);
        check_images(banks[i / 4], codes[i % 4]);
        check_recovery(banks[i / 4], codes[i % 4]);
    }
    return report("mbc5");
}
