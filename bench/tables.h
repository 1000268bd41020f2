#include <stddef.h>
#include <stdint.h>

void make_tables(void);
uint16_t crc_table(const uint8_t *p, size_t n);
uint16_t crc_slicing(const uint8_t *p, size_t n);
