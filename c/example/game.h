/* The game that the player plays: its cartridge, and its list of save writes, write i for i = 0, 1, ... A pass goes once over the whole save, in a scattered
 * order. */
#ifndef GAME_H
#define GAME_H

#include <pouchrattle.h>

#if defined LARGE_GAME /* the largest ROM, and a save of four banks: the tests play and kill it too */
enum { GAME_KIND = POUCH_MBC5, GAME_BANKS = 512, GAME_CODE = 3, SAVE_LEN = POUCH_SAVE_LEN_CODE_3 };
#elif defined LARGEST_SAVE /* and this one, whose save has 16 banks */
enum { GAME_KIND = POUCH_MBC5, GAME_BANKS = 64, GAME_CODE = 4, SAVE_LEN = POUCH_SAVE_LEN_CODE_4 };
#else
enum { GAME_KIND = POUCH_MBC1, GAME_BANKS = 2, GAME_CODE = 2, SAVE_LEN = POUCH_SAVE_LEN_CODE_2 };
#endif

/* The bus shows one bank of the save, at A000..BFFF. */
enum { SAVE_BANK_LEN = 8192 };

/* The address in the save: 0, 3001, 6002, .. modulo its length. 3001 is odd, so a pass meets each address once. */
static inline uint32_t game_at(uint32_t i)
{
    return i * 3001u % SAVE_LEN;
}

/* The value: never that of an empty save, 0, and at each address another in each of 255 passes. */
static inline uint8_t game_value(uint32_t i)
{
    return (uint8_t)(1 + (i / SAVE_LEN + game_at(i)) % 255);
}

#endif
