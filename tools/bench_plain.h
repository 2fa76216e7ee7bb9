/* The plain C beside which tools/bench measures the library. */
#ifndef BENCH_PLAIN_H
#define BENCH_PLAIN_H

#include <stddef.h>
#include <stdint.h>

/* As lukwaizo_check. */
uint32_t plain_check(const uint8_t *image, size_t length);

#endif
