/* The CRC-16 of T10 DIF by a table of 256 entries and by slicing-by-16, in plain C. */
#include "tables.h"

static uint16_t table[16][256];

void make_tables(void) {
    for (int byte = 0; byte < 256; byte++) {
        uint16_t crc = (uint16_t)(byte << 8);
        for (int bit = 0; bit < 8; bit++)
            crc = (uint16_t)(crc & 0x8000 ? (crc << 1) ^ 0x8BB7 : crc << 1);
        table[0][byte] = crc;
    }
    for (int row = 1; row < 16; row++)
        for (int byte = 0; byte < 256; byte++) {
            uint16_t crc = table[row - 1][byte];
            table[row][byte] = (uint16_t)(crc << 8) ^ table[0][crc >> 8];
        }
}

uint16_t crc_table(const uint8_t *p, size_t n) {
    uint16_t crc = 0;
    for (; n; n--)
        crc = (uint16_t)(crc << 8) ^ table[0][(crc >> 8) ^ *p++];
    return crc;
}

uint16_t crc_slicing(const uint8_t *p, size_t n) {
    uint16_t crc = 0;
    for (; n >= 16; n -= 16, p += 16)
        crc = table[13][p[2]] ^ table[12][p[3]] ^ table[11][p[4]] ^ table[10][p[5]]
            ^ table[9][p[6]] ^ table[8][p[7]] ^ table[7][p[8]] ^ table[6][p[9]]
            ^ table[5][p[10]] ^ table[4][p[11]] ^ table[3][p[12]] ^ table[2][p[13]]
            ^ table[1][p[14]] ^ table[0][p[15]]
            ^ table[15][(crc >> 8) ^ p[0]] ^ table[14][(crc & 0xff) ^ p[1]];
    for (; n; n--)
        crc = (uint16_t)(crc << 8) ^ table[0][(crc >> 8) ^ *p++];
    return crc;
}
