/* The record of a stored byte, as the tests expect it in a log; and as versions before 3.0 wrote it. */
#include <pouchrattle.h>

static inline void put_record(uint8_t record[POUCH_RECORD_LEN], uint32_t at, uint8_t value)
{
    record[0] = (uint8_t)(0x80 | at >> 10);
    record[1] = (uint8_t)(at >> 2);
    record[2] = (uint8_t)((at & 3) << 6 | value >> 2);
    record[3] = (uint8_t)((value & 3) << 6);
}

static inline void put_old_record(uint8_t record[POUCH_OLD_RECORD_LEN], uint32_t at, uint8_t value)
{
    record[0] = (uint8_t)(0x80 | at >> 8);
    record[1] = (uint8_t)at;
    record[2] = value;
}
