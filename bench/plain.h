#ifndef PLAIN_H
#define PLAIN_H

#include <stddef.h>
#include <stdint.h>
#include <string.h>

int64_t plain_best(const int32_t *a, size_t m, const int32_t *b, size_t n, uint8_t *strip, uint8_t *work);

/* the same with the table in the shape that `joining` has */
int64_t twin_best(const int32_t *a, size_t m, const int32_t *b, size_t n, uint8_t *strip, uint8_t *work);

#endif
