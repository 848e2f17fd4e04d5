/* SHA-256 in plain C, to measure against. */

#ifndef SHA256_PLAIN_H
#define SHA256_PLAIN_H

#include <stddef.h>

/* Writes the SHA-256 digest of len bytes of text to out. */
void sha256_plain(const unsigned char *text, size_t len, unsigned char out[32]);

#endif
