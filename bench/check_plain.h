#ifndef CHECK_PLAIN_H
#define CHECK_PLAIN_H

#include <stddef.h>
#include <stdint.h>

uint32_t check_plain(const unsigned char *sheet, size_t sheet_len, const unsigned char *file, size_t file_len);

#endif
