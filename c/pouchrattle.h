/* Pouchrattle: the memory bus of a handheld console, for C and C++ hosts.
 *
 * The host runs the processor, draws, and makes sound. It asks this library what a read answers and what a write does, keeps the timers in step with
 * the game by it, and tells it of the buttons. Every stored save byte is written to a log, from which a save is recovered after a session that ended
 * without warning.
 *
 * What the host owns and lends for the time of a call:
 *
 *   image   the state of the bus, POUCH_IMAGE_LEN bytes. Made by pouch_fresh, changed by the calls. It is plain data: the host may copy it, store it,
 *           put it back (with the memories as they were then; what that means for save and log is in README.md beside this file). A stored one
 *           is for the version that made it: see pouch_version.
 *   rom     the cartridge's ROM: N banks of 16,384 bytes, N a power of two, 512 (8 MiB) at most.
 *   vram    video memory: 8,192 bytes, in colour 16,384 (bank 0, then bank 1).
 *   wram    work memory: 8,192 bytes, in colour 32,768 (banks 0 to 7).
 *   save    the cartridge's RAM: 0, 512, 8,192, 32,768 or 131,072 bytes, as the cartridge has.
 *   log     0 to POUCH_LOG_LEN_MAX bytes. The image says how many of them are used: pouch_log_used.
 *   sound   what FF10..FF3F read now: 48 bytes, which the host's sound part keeps.
 *
 * Rules for the host, which no call can check:
 *
 *   - Each pointer has as many bytes behind it as the length says. None is NULL, not even with length 0.
 *   - What is lent to one call does not overlap, results (`value` and others that a call sets) too.
 *   - A bool is 0 or 1. In C++ and in C with <stdbool.h> it always is.
 *
 * All else is checked: any image, any length, any number is taken, and every call ends. The library has no memory of its own, allocates nothing and
 * calls nothing, so a call may be made from any thread; two calls at the same time must not share what one of them writes.
 *
 * Each call but pouch_version gives back a number (enum pouch_number). 0 and 1 say that it is done. Any other refuses: then no byte of what was lent
 * is changed, and a `value` is set to 0. Where several refusals are due, the first in this order is given, and the comments below name them in it:
 *
 *   4  the image's length is not POUCH_IMAGE_LEN
 *   3  the image's contents are out of range (pouch_fresh: the cartridge's description is); or the log's use is beyond the lent log
 *   4  another lent length is not what it must be
 *   5  too many cycles
 *   7  a button, an interrupt, an index or a bank outside
 *   6  a damaged record; from pouch_log_to_old also an address that does not fit
 *   2  no room in the log
 *
 * An image that pouch_fresh made and these calls changed is always in range. An image of zero bytes is not: it is refused by 3.
 * Indexes are the processor's addresses, 0000 to FFFF; FF00 and so on are hexadecimal. */
#ifndef POUCHRATTLE_H
#define POUCHRATTLE_H

#include <stdbool.h>
#include <stddef.h>
#include <stdint.h>

#ifdef __cplusplus
extern "C" {
#endif

/* The number that a call gives back. */
enum pouch_number {
    POUCH_DONE = 0,
    POUCH_OWED = 1,            /* done; an index of this write is in FF10..FF3F, and the host owes its sound part the write */
    POUCH_NO_ROOM = 2,         /* a write in A000..BFFF, and too few log bytes are free: copy the used bytes off, clear, write again. A log
                                  of under 4 bytes, for words 8, never has room */
    POUCH_OUT_OF_RANGE = 3,    /* the cartridge's description, or the state in the image */
    POUCH_WRONG_LENGTH = 4,    /* of something lent */
    POUCH_TOO_MANY_CYCLES = 5, /* over 65,536 in one call */
    POUCH_DAMAGED = 6,         /* recovery, or a converter, met a whole record that is damaged; or one that the old form has no room for */
    POUCH_OUTSIDE = 7          /* a button over 7, an interrupt over 4, an index or a bank outside */
};

/* Buttons, for pouch_press and pouch_release. */
enum pouch_button {
    POUCH_UP = 0,
    POUCH_DOWN = 1,
    POUCH_LEFT = 2,
    POUCH_RIGHT = 3,
    POUCH_A = 4,
    POUCH_B = 5,
    POUCH_START = 6,
    POUCH_SELECT = 7
};

/* Interrupts, by their bits in FF0F and FFFF. The last is an answer of pouch_get_interrupts alone. */
enum pouch_interrupt {
    POUCH_VBLANK = 0,
    POUCH_LCD = 1,
    POUCH_TIMER = 2,
    POUCH_SERIAL = 3,
    POUCH_JOYPAD = 4,
    POUCH_NO_INTERRUPT = 5
};

/* Mappers, for pouch_fresh. RAM code 0, 2 or 3, where nothing else is said. Code 4, of 16 RAM banks, is Mbc5's alone: with another it is refused by 3. */
enum pouch_kind {
    POUCH_ROM_ONLY = 0, /* 2 ROM banks */
    POUCH_MBC1 = 1,     /* 2, 4, .. 128 ROM banks: up to 2 MiB */
    POUCH_MBC2 = 2,     /* 2, 4, 8, 16 ROM banks, a save of 512 bytes, RAM code 0 */
    POUCH_MBC5 = 3      /* 2, 4, .. 512 ROM banks: up to 8 MiB; RAM code 4 too */
};

/* Lengths in bytes. */
#define POUCH_IMAGE_LEN 666 /* 665 before version 2.0; 2.0 had another layout of the same length */
#define POUCH_ROM_BANK_LEN 16384
#define POUCH_VRAM_LEN_MONOCHROME 8192
#define POUCH_VRAM_LEN_COLOUR 16384
#define POUCH_WRAM_LEN_MONOCHROME 8192
#define POUCH_WRAM_LEN_COLOUR 32768
#define POUCH_SAVE_LEN_CODE_0 0      /* RAM code 0 of RomOnly, Mbc1 and Mbc5 */
#define POUCH_SAVE_LEN_CODE_2 8192   /* RAM code 2 of the same: one bank */
#define POUCH_SAVE_LEN_CODE_3 32768  /* RAM code 3 of the same: four banks */
#define POUCH_SAVE_LEN_CODE_4 131072 /* RAM code 4 of Mbc5 alone: 16 banks */
#define POUCH_SAVE_LEN_MBC2 512      /* Mbc2, RAM code 0 */
#define POUCH_SOUND_LEN 48
#define POUCH_LOG_LEN_MAX 65535
#define POUCH_COLORS_LEN 192 /* red, green and blue of 64 colours */
#define POUCH_OAM_LEN 160    /* 40 sprites of four bytes */
#define POUCH_BLOCK_LEN_MAX 65536

/* A log is records of 4 bytes, most significant bit first: a 1 bit, 17 bits of address in the save, 8 bits of value, six 0 bits. So the value 56 at 1234
 * is 84 8D 15 80. */
#define POUCH_RECORD_LEN 4

/* Before version 3.0 it was records of 3 bytes: a 1 bit, 15 bits of address, 8 bits of value; the same was 92 34 56. Nothing in a log says which form it has:
 * a log of one form is mostly, not always, refused as damaged where it is taken for the other. A host tells them apart by what it keeps beside: the mark of
 * a journal (pouch_bus.h), or the record's length in the number of pouch_version. pouch_log_to_new converts. */
#define POUCH_OLD_RECORD_LEN 3

/* The version that this header is of, the image's length and a record's, as one number: what pouch_version gives where the library is of the same. */
#define POUCH_VERSION_MAJOR 3
#define POUCH_VERSION_MINOR 0
#define POUCH_VERSION_PATCH 0
#define POUCH_VERSION                                                                                                              \
    ((UINT64_C(65536) * POUCH_VERSION_MAJOR + UINT64_C(256) * POUCH_VERSION_MINOR + POUCH_VERSION_PATCH) << 32 | UINT64_C(256) * POUCH_IMAGE_LEN | \
     POUCH_RECORD_LEN)

/* And taken apart: version in bits 63..32 (major from bit 48 on, minor 8 bits, patch 8 bits), image's length in bits 31..8, record's in bits 7..0.
 * Numbers are uint64_t, as the one that is taken apart. */
#define POUCH_MAJOR_OF(version) ((version) >> 48)
#define POUCH_MINOR_OF(version) ((version) >> 40 & 0xFF)
#define POUCH_PATCH_OF(version) ((version) >> 32 & 0xFF)
#define POUCH_IMAGE_LEN_OF(version) ((version) >> 8 & 0xFFFFFF)
#define POUCH_RECORD_LEN_OF(version) ((version) & 0xFF)

/* POUCH_VERSION as the library has it; takes nothing, refuses nothing. For a host that finds the library at run time (compare with POUCH_VERSION), or that
 * stores images and logs for later: store the number beside them, and compare it before a stored image is used. The image itself does not say of which
 * version it is. One of before 2.0 is refused by its length (4). One of 2.0 has this version's length and another layout: it may be refused by 3, and may as
 * well be taken for another state, with other banks and another use of the log. Only the number beside it tells. No image of another MAJOR is converted: such
 * a session goes on from its save and its log. */
uint64_t pouch_version(void);

/* Starting, and the save's log */

/* Makes the image of a fresh bus. `kind` is an enum pouch_kind, `banks` N, `code` the RAM code of the cartridge's header: 0, 2, 3, with Mbc5 4 too. vram and wram are
 * zeroed; the bytes of save and log are kept, and the log's use is 0. What the image held before does not matter.
 * 0; 4 image's length; 3 kind, banks or code out of range; 4 another length is not the one that kind, banks, code and colour ask for. */
uint8_t pouch_fresh(
    uint8_t *image, size_t image_len, uint8_t kind, uint16_t banks, uint8_t code, bool colour, const uint8_t *rom, size_t rom_len, uint8_t *vram,
    size_t vram_len, uint8_t *wram, size_t wram_len, const uint8_t *save, size_t save_len, const uint8_t *log, size_t log_len, const uint8_t *sound,
    size_t sound_len);

/* The number of log bytes that are used, a multiple of POUCH_RECORD_LEN: records of what was stored since the log was last cleared, in order.
 * 0; 4, 3 image. */
uint8_t pouch_log_used(const uint8_t *image, size_t image_len, uint16_t *value);

/* Sets the log's use to 0; its bytes stay. The host has copied the used bytes off: what it did not copy cannot be recovered.
 * 0; 4, 3 image. */
uint8_t pouch_clear_log(uint8_t *image, size_t image_len);

/* Sets the log's use, for a host that goes on from an older image with the log that it has. It belongs to the log's bytes, which no image holds: take it
 * by pouch_log_used from the image that is left. Where no such log is at hand, pouch_clear_log.
 * 0; 4, 3 image; 3 used is not a multiple of POUCH_RECORD_LEN. */
uint8_t pouch_set_log_used(uint8_t *image, size_t image_len, uint16_t used);

/* Recovery: stores the log's records in the save, in order. Takes no image. Copies of a log that was cleared in between are given one by one, in order.
 * Last bytes that are no whole record, up to 3, are ignored.
 * 0; 4 save_len is not 0, 512, 8,192, 32,768 or 131,072, or log_len is over POUCH_LOG_LEN_MAX; 6 a whole record begins with a 0 bit, does not end in six 0
 * bits, or names no byte of this save. */
uint8_t pouch_recover(uint8_t *save, size_t save_len, const uint8_t *log, size_t log_len);

/* Converters, for the logs of versions before 3.0 that players have: records of POUCH_OLD_RECORD_LEN bytes in `old`, of POUCH_RECORD_LEN in `log`, each with
 * the address and the value of its fellow, in order. `value` is how many bytes of the target they take; target bytes past them stay. Last bytes of the source
 * that are no whole record, 1 or 2 of an old log, up to 3 of a new one, are dropped. No image and no save is taken, so an address may lie beyond the save that
 * the log is of: recovery tests that. As nothing lent overlaps, no log is converted in its own place.
 *
 * An undamaged old log of at most 16,383 records goes to the new form and back unchanged. A longer one is converted in parts of whole records, as each part is
 * a log: 49,149 old bytes make 65,532 new ones. An undamaged new log goes back where every address is below 32,768.
 * 0; 4 the source is over POUCH_LOG_LEN_MAX bytes, or its records would be in the target's form, or the target is too short for them (it may be longer than any
 * log);
 * 6 a whole record begins with a 0 bit, a new one does not end in six 0 bits, or, to the old form, has an address of 32,768 or more. */
uint8_t pouch_log_to_new(const uint8_t *old, size_t old_len, uint8_t *log, size_t log_len, uint16_t *value);
uint8_t pouch_log_to_old(const uint8_t *log, size_t log_len, uint8_t *old, size_t old_len, uint16_t *value);

/* The processor's reads and writes */

/* The byte that the processor reads. Changes nothing.
 * 0; 4, 3 image; 4 another length. */
uint8_t pouch_read_byte(
    const uint8_t *image, size_t image_len, const uint8_t *rom, size_t rom_len, const uint8_t *vram, size_t vram_len, const uint8_t *wram,
    size_t wram_len, const uint8_t *save, size_t save_len, const uint8_t *sound, size_t sound_len, uint16_t index, uint8_t *value);

/* The bytes at `index` (low) and at the next index (high); FFFF is followed by 0000.
 * 0; 4, 3 image; 4 another length. */
uint8_t pouch_read_word(
    const uint8_t *image, size_t image_len, const uint8_t *rom, size_t rom_len, const uint8_t *vram, size_t vram_len, const uint8_t *wram,
    size_t wram_len, const uint8_t *save, size_t save_len, const uint8_t *sound, size_t sound_len, uint16_t index, uint16_t *value);

/* The bytes at `index` and behind it, as many as out_len says, each as pouch_read_byte gives it; FFFF is followed by 0000. For a host that looks through
 * tile maps, names or a whole bank: image and lengths are checked once for all of them. Of video and work memory these are the banks that the game has
 * selected; pouch_read_cgb_lcd_ram reads by bank.
 * 0; 4, 3 image; 4 another length, or out_len is over POUCH_BLOCK_LEN_MAX. */
uint8_t pouch_read_block(
    const uint8_t *image, size_t image_len, const uint8_t *rom, size_t rom_len, const uint8_t *vram, size_t vram_len, const uint8_t *wram,
    size_t wram_len, const uint8_t *save, size_t save_len, const uint8_t *sound, size_t sound_len, uint16_t index, uint8_t *out, size_t out_len);

/* A byte of video memory by its bank, whichever bank the game has selected: `index` in 8000..9FFF, `bank` 0, in colour 0 or 1.
 * 0; 4, 3 image; 4 vram's length; 7 index or bank outside. */
uint8_t pouch_read_cgb_lcd_ram(
    const uint8_t *image, size_t image_len, const uint8_t *vram, size_t vram_len, uint16_t index, uint8_t bank, uint8_t *value);

/* The mapper alone, without the bus around it: a byte of ROM at 0000..7FFF, or of the save at A000..BFFF.
 * 0; 4, 3 image; 4 another length; 7 index outside. */
uint8_t pouch_mapper_read(
    const uint8_t *image, size_t image_len, const uint8_t *rom, size_t rom_len, const uint8_t *save, size_t save_len, uint16_t index, uint8_t *value);

/* What the mapper does with a byte: its registers change in the image; save and log are not touched. `value` is the record that the bus would log, as a
 * number: bit 31 set, the save's address in bits 30..14, the byte that is stored in bits 13..6, 0 in bits 5..0; or 0 where nothing is to be stored.
 * 0; 4, 3 image; 7 index outside 0000..7FFF and A000..BFFF. */
uint8_t pouch_mapper_write(uint8_t *image, size_t image_len, uint16_t index, uint8_t byte, uint32_t *value);

/* The processor writes a byte: into a memory, a register, or the mapper. A save byte that the mapper lets in is stored in save and logged, one record
 * each, also when its value is the same. A write to FF46 or FF55 runs its transfer within the call; no transfer writes to the save.
 * 0; 1 index in FF10..FF3F; 4, 3 image or log's use; 4 another length; 2 index in A000..BFFF (also where the mapper stores nothing) and no room for a
 * record. */
uint8_t pouch_write_byte(
    uint8_t *image, size_t image_len, const uint8_t *rom, size_t rom_len, uint8_t *vram, size_t vram_len, uint8_t *wram, size_t wram_len, uint8_t *save,
    size_t save_len, uint8_t *log, size_t log_len, const uint8_t *sound, size_t sound_len, uint16_t index, uint8_t byte);

/* Two byte writes: the low byte at `index`, then the high byte at the next index; FFFF is followed by 0000.
 * 0; 1 one of both in FF10..FF3F; 4, 3 image or log's use; 4 another length; 2 one of both in A000..BFFF and no room for two records. */
uint8_t pouch_write_word(
    uint8_t *image, size_t image_len, const uint8_t *rom, size_t rom_len, uint8_t *vram, size_t vram_len, uint8_t *wram, size_t wram_len, uint8_t *save,
    size_t save_len, uint8_t *log, size_t log_len, const uint8_t *sound, size_t sound_len, uint16_t index, uint16_t word);

/* The transfer of 160 bytes to FE00..FE9F that a write of `page` to FF46 runs: pages 00..DF copy, those below 80 as the mapper shows
 * them; others do nothing.
 * 0; 4, 3 image or log's use; 4 another length. */
uint8_t pouch_do_dma_transfer(
    uint8_t *image, size_t image_len, const uint8_t *rom, size_t rom_len, uint8_t *vram, size_t vram_len, uint8_t *wram, size_t wram_len, uint8_t *save,
    size_t save_len, uint8_t *log, size_t log_len, const uint8_t *sound, size_t sound_len, uint8_t page);

/* One block of 16 bytes to video memory, for the host to call at each line's end while pouch_is_hdma_enabled says 1; `value` is the 36 cycles that it takes.
 * 0; 4, 3 image or log's use; 4 another length. */
uint8_t pouch_do_hdma(
    uint8_t *image, size_t image_len, const uint8_t *rom, size_t rom_len, uint8_t *vram, size_t vram_len, uint8_t *wram, size_t wram_len, uint8_t *save,
    size_t save_len, uint8_t *log, size_t log_len, const uint8_t *sound, size_t sound_len, uint16_t *value);

/* `value` is 1 while a transfer by blocks is on, else 0.
 * 0; 4, 3 image. */
uint8_t pouch_is_hdma_enabled(const uint8_t *image, size_t image_len, uint16_t *value);

/* The registers' page as it is stored, FF00..FFFF, with none of the rules of a read or a write.
 * 0; 4, 3 image; 7 index below FF00. */
uint8_t pouch_load(const uint8_t *image, size_t image_len, uint16_t index, uint16_t *value);
uint8_t pouch_store(uint8_t *image, size_t image_len, uint16_t index, uint8_t byte);

/* Timer and interrupts */

/* `cycles` have passed: DIV and TIMA step, and TIMA's overflow requests its interrupt. Many cycles take about as long as few.
 * 0; 4, 3 image; 5 cycles over 65,536. */
uint8_t pouch_update_timer(uint8_t *image, size_t image_len, uint32_t cycles);

/* How many cycles are left until TIMA overflows and requests its interrupt: an update by fewer does not make it, one by as many does; 0 where an update
 * by 0 does. POUCH_NEVER while TIMA does not count (bit 2 of FF07 is clear). So a host may update the timer when it is due and not at every instruction:
 * at 65,536 cycles at the latest, which is the most that an update takes (the number can be larger), and before whatever may look at FF04..FF07 or change
 * them: the game's reads and writes there, words too, a write to FF46 or FF55, pouch_do_dma_transfer, pouch_do_hdma, pouch_load and pouch_store.
 * Ask again after an update, and after such a write.
 * 0; 4, 3 image. */
#define POUCH_NEVER 0xFFFFFFFFu
uint8_t pouch_cycles_to_overflow(const uint8_t *image, size_t image_len, uint32_t *value);

/* The requested and enabled interrupt that is served first, or POUCH_NO_INTERRUPT. Refused, `value` is 0, which the number tells from POUCH_VBLANK.
 * 0; 4, 3 image. */
uint8_t pouch_get_interrupts(const uint8_t *image, size_t image_len, uint16_t *value);

/* Sets, or clears, an interrupt's bit in FF0F.
 * 0; 4, 3 image; 7 interrupt over 4. */
uint8_t pouch_request_interrupt(uint8_t *image, size_t image_len, uint8_t interrupt);
uint8_t pouch_remove_interrupt(uint8_t *image, size_t image_len, uint8_t interrupt);

/* Buttons */

/* A button goes down, or up. The game sees it after pouch_update_joypad.
 * 0; 4, 3 image; 7 button over 7. */
uint8_t pouch_press(uint8_t *image, size_t image_len, uint8_t button);
uint8_t pouch_release(uint8_t *image, size_t image_len, uint8_t button);

/* Shows the buttons to FF00, and requests the interrupt of a new press whose kind of key answers (see below).
 * 0; 4, 3 image. */
uint8_t pouch_update_joypad(uint8_t *image, size_t image_len);

/* What FF00 answers from, a bit for each button that is up: Right, Left, Up, Down, A, B, Select, Start from bit 0. pouch_update_joypad sets it again.
 * 0; 4, 3 image. */
uint8_t pouch_set_joypad_state(uint8_t *image, size_t image_len, uint8_t state);

/* `value` is 1 if that kind of key answers, else 0: actions unless FF00's bits 5..4 are 10, directions unless they are 01 (binary).
 * 0; 4, 3 image. */
uint8_t pouch_are_action_keys_enabled(const uint8_t *image, size_t image_len, uint16_t *value);
uint8_t pouch_are_direction_keys_enabled(const uint8_t *image, size_t image_len, uint16_t *value);

/* Screen: for a host that draws.
 *
 * Eight numbers of the state are the host's and the bus's together. The host sets them as it draws; the bus changes them when the game writes. Names are
 * gameboy_core's, behind the arrow what the bus does:
 *
 *   screen_disabled             0 or 1; FF44 reads 0 while it is 1      -> 1 by FF40 given bit 7 clear, and by FF44 given bit 7 clear on line 128 or beyond.
 *                                                                          The bus never clears it: the host does, when the delay is over.
 *   scan_line                   what FF44 reads, 0 to 153               -> 0 when the screen is disabled
 *   irq48_signal                which sources of the LCD interrupt      -> 0 when the screen is disabled; FF41 written: of its bits those stay whose source
 *                               hold now: bits 0, 1, 2 LCD mode 0, 1,      is still selected; FF41 or another byte to FF45 written while FF40's bit 7 is set:
 *                               2, bit 3 scan line = FF45; each if         bit 3 as pouch_compare_ly_to_lyc sets it. Bits 0 to 2 are set by the host alone.
 *                               FF41's bit 3, 4, 5, 6 selects it
 *   lcd_status_mode             0 a line's end (horizontal blank),      -> 0 when the screen is disabled
 *                               1 vertical blank, 2 OAM is searched,
 *                               3 a line is drawn
 *   screen_enable_delay_cycles  cycles until the screen is on           -> 244 by FF40 given bit 7 set while the screen is disabled, every time
 *   cycles_counter              cycles, as the host counts them         -> 0 when the screen is disabled
 *   aux_cycles_counter          the same, a second count                -> 0 when the screen is disabled
 *   window_line                 the window's own line                   -> 144, past the last one shown, where it is 0 on a line below 144 and beyond FF4A
 *                                                                          and FF40's bit 5 goes from 0 to 1
 *
 * So after each write of the game's to FF40, FF41, FF44 or FF45, words too, the host's own copies may be old: read them again by pouch_host_numbers, or
 * keep none. And set what the drawing changed by the calls for one number: pouch_host with eight copies turns a screen on again that the game has turned
 * off meanwhile.
 *
 * What the bus makes of them: FF44 reads the line; a request of the LCD interrupt needs a signal of 0, so that one source that holds keeps the others
 * from requesting; FF41 written while FF40's bit 7 is set requests where the present mode's source is selected; FF55 starts a transfer by blocks with one
 * block at once in mode 0. Nothing else: the bus moves no line and no mode, and does not show the mode in FF41. The host puts it into FF41's bits 1..0:
 * pouch_load, these two changed, pouch_store. That a screen is on after its delay is the host's doing too: it takes cycles off the delay, and at 0 sets
 * screen_disabled to 0. A fresh bus has line 144 in mode 1, the screen on, all else 0.
 *
 * Double speed, in colour, is the host's too. The game arms it by bit 0 of FF4D; the bus keeps that bit and bit 7, the present speed, and does no more.
 * At a stop instruction with bit 0 set the host switches: pouch_load of FF4D, and pouch_store of that byte with bits 7 and 0 turned over (^ 0x81).
 * pouch_update_timer is given the processor's cycles at either speed; the screen takes half as many at double speed.
 *
 * For a frame: pouch_colors and pouch_oam once, tiles and maps by pouch_read_block or, whichever bank the game has selected, from vram itself, which the host
 * owns. What calls cost beside a read of work memory of 134 instructions: one number set 84 to 98, pouch_host_numbers 151, pouch_host 191, pouch_oam 110,
 * pouch_colors 1,497 (bench/budgets.txt has every call). */

/* Sets all eight, to any values: screen disabled, scan line, signal, mode, delay, cycles, auxiliary cycles, window line.
 * 0; 4, 3 image. */
uint8_t pouch_host(
    uint8_t *image, size_t image_len, bool disabled, uint8_t line, uint8_t signal, uint8_t mode, int32_t delay, int32_t counter, int32_t aux,
    int32_t window);

/* All eight as they stand now; `disabled` is 1 or 0. Refused, all are 0.
 * 0; 4, 3 image. */
uint8_t pouch_host_numbers(
    const uint8_t *image, size_t image_len, uint8_t *disabled, uint8_t *line, uint8_t *signal, uint8_t *mode, int32_t *delay, int32_t *counter,
    int32_t *aux, int32_t *window);

/* One of the eight set, to any value; the other seven stay.
 * 0; 4, 3 image. */
uint8_t pouch_set_screen_disabled(uint8_t *image, size_t image_len, bool disabled);
uint8_t pouch_set_scan_line(uint8_t *image, size_t image_len, uint8_t line);
uint8_t pouch_set_irq48_signal(uint8_t *image, size_t image_len, uint8_t signal);
uint8_t pouch_set_lcd_status_mode(uint8_t *image, size_t image_len, uint8_t mode);
uint8_t pouch_set_screen_enable_delay_cycles(uint8_t *image, size_t image_len, int32_t delay);
uint8_t pouch_set_cycles_counter(uint8_t *image, size_t image_len, int32_t counter);
uint8_t pouch_set_aux_cycles_counter(uint8_t *image, size_t image_len, int32_t aux);
uint8_t pouch_set_window_line(uint8_t *image, size_t image_len, int32_t window);

/* The colours of the palettes, for drawing: red, green, blue of each, 0 to 31; colours 0 to 3 of the background's palettes 0 to 7, then the sprites'.
 * 0; 4, 3 image; 4 colors_len is not POUCH_COLORS_LEN. */
uint8_t pouch_colors(const uint8_t *image, size_t image_len, uint8_t *colors, size_t colors_len);

/* The sprites, for drawing: FE00..FE9F, for each of 40 its y, x, tile and attributes. (They are the image's first bytes too, as FE00..FEFF are its first
 * 256; but only this call says so in every version.)
 * 0; 4, 3 image; 4 oam_len is not POUCH_OAM_LEN. */
uint8_t pouch_oam(const uint8_t *image, size_t image_len, uint8_t *oam, size_t oam_len);

/* What a write of `byte` does to FF40 (control), FF41 (status), FF44 (scan line), FF45 (the line to compare with).
 * 0; 4, 3 image. */
uint8_t pouch_do_lcd_control_write(uint8_t *image, size_t image_len, uint8_t byte);
uint8_t pouch_do_lcd_status_write(uint8_t *image, size_t image_len, uint8_t byte);
uint8_t pouch_do_scanline_write(uint8_t *image, size_t image_len, uint8_t byte);
uint8_t pouch_do_lyc_write(uint8_t *image, size_t image_len, uint8_t byte);

/* Compares scan line and FF45, unless the screen is disabled: FF41's bit 2 says whether they are equal. Where they are and FF41's bit 6 is set,
 * the signal's bit 3 is set, and the LCD interrupt is requested if the signal was 0; where they differ that bit is cleared.
 * 0; 4, 3 image. */
uint8_t pouch_compare_ly_to_lyc(uint8_t *image, size_t image_len);

/* What FF40 given bit 7 set does: a disabled screen gets its delay of 244 cycles; another stays as it is.
 * 0; 4, 3 image. */
uint8_t pouch_enable_screen(uint8_t *image, size_t image_len);

/* Disables the screen: mode, line, signal and the two cycle counters become 0, and of FF41 bits 2 to 6 stay.
 * 0; 4, 3 image. */
uint8_t pouch_disable_screen(uint8_t *image, size_t image_len);

/* Window line 0 becomes 144 where the scan line is below 144 and beyond FF4A.
 * 0; 4, 3 image. */
uint8_t pouch_reset_window_line(uint8_t *image, size_t image_len);

#ifdef __cplusplus
}
#endif

#endif
