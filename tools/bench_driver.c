/* Times the library and the plain C on the same images, for tools/bench.
 *
 *     bench SECONDS REPETITIONS [alone]
 *
 * reads from standard input, for each image, a line with its name and a line with its bytes in
 * hexadecimal. For each it makes REPETITIONS measurements of either, in turn, each of as many calls as
 * take SECONDS or of one call, and prints
 *
 *     NAME <tab> code <tab> calls <tab> least time a call of the library <tab> of the plain C
 *
 * in seconds of processor time. Ends with 1 at an image on which the two do not give the same code. With
 * `alone` the plain C is not called, and its time is told as 0.
 */
#include <stdio.h>
#include <stdlib.h>
#include <string.h>
#include <time.h>

#include "bench_plain.h"
#include "lukwaizo.h"

typedef uint32_t check(const uint8_t *, size_t);

static double now(void)
{
    struct timespec t;
    clock_gettime(CLOCK_PROCESS_CPUTIME_ID, &t);
    return (double)t.tv_sec + 1e-9 * (double)t.tv_nsec;
}

/* The time of one call, over `calls` of them, and the code. */
static double timed(check *f, const uint8_t *image, size_t length, long calls, uint32_t *code)
{
    double start = now();
    for (long n = 0; n < calls; n++)
        *code = f(image, length);
    return (now() - start) / (double)calls;
}

int main(int count, char **words)
{
    static char name[256], line[2 * LUKWAIZO_LIMIT + 2];
    static uint8_t image[LUKWAIZO_LIMIT];
    if (count != 3 && !(count == 4 && strcmp(words[3], "alone") == 0))
        return 2;
    int alone = count == 4;
    double seconds = atof(words[1]);
    long repetitions = atol(words[2]);
    while (fgets(name, sizeof name, stdin) && fgets(line, sizeof line, stdin)) {
        name[strcspn(name, "\n")] = 0;
        size_t length = strcspn(line, "\n") / 2;
        for (size_t at = 0; at < length; at++) {
            char digits[3] = {line[2 * at], line[2 * at + 1], 0};
            image[at] = (uint8_t)strtoul(digits, NULL, 16);
        }
        uint32_t code, plain_code;
        double least = timed(lukwaizo_check, image, length, 1, &code);
        double plain_least = alone ? 0 : timed(plain_check, image, length, 1, &plain_code);
        if (!alone && code != plain_code) {
            printf("%s: the library gives %u, the plain C %u\n", name, (unsigned)code, (unsigned)plain_code);
            return 1;
        }
        double once = least > plain_least ? least : plain_least;
        long calls = once >= seconds ? 1 : (long)(seconds / (once > 1e-8 ? once : 1e-8)) + 1;
        long turns = once >= 20 * seconds ? 1 : repetitions;
        for (long n = calls == 1 ? 1 : 0; n < turns; n++) {
            double one = timed(lukwaizo_check, image, length, calls, &code);
            double plain = alone ? 0 : timed(plain_check, image, length, calls, &plain_code);
            if (n == 0 || one < least)
                least = one;
            if (n == 0 || plain < plain_least)
                plain_least = plain;
        }
        printf("%s\t%u\t%ld\t%.9g\t%.9g\n", name, (unsigned)code, calls * turns, least, plain_least);
        fflush(stdout);
    }
    return 0;
}
