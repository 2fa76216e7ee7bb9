/* A host in C: asks the library for the verdict of images.
 *
 *     host FILE ..   prints for each file its name, the code and what the code means
 *     host --hex     reads images from standard input, each a line in hexadecimal (an empty line is an
 *                    image of no bytes), and prints one code a line, or `bad line` where a line is no
 *                    hexadecimal
 *
 * Status 0: every image was read, whatever its verdict. Status 2: a file could not be read, a line was
 * bad, or the answers could not be written.
 *
 * `make -C examples/host` builds it, once `tools/staticlib` has written the library.
 */
#include <stdio.h>
#include <string.h>

#include "lukwaizo.h"

/* More than the library looks at, so that its limit is its own. What is longer is cut here. */
static uint8_t image[2 * LUKWAIZO_LIMIT];

static const char *meaning(uint32_t code)
{
    switch (code) {
    case LUKWAIZO_YES: return "granted: every job will be done in time";
    case LUKWAIZO_COST: return "refused: a cost is 0 or above 10,000,000";
    case LUKWAIZO_PERIOD: return "refused: a period or a gap is 0 or above 10,000,000";
    case LUKWAIZO_DEADLINE: return "refused: a deadline is 0 or above 100,000,000";
    case LUKWAIZO_JITTER: return "refused: a jitter is not below both period and deadline";
    case LUKWAIZO_SECTION: return "refused: a bus section is above the cost or above 65,535";
    case LUKWAIZO_FRAMES: return "refused: there is a seventeenth frame";
    case LUKWAIZO_CHANNEL: return "refused: a channel is above 63";
    case LUKWAIZO_NOT_CLOSED: return "refused: the busy period does not close";
    case LUKWAIZO_LATE: return "late: a claim exceeds its tick";
    case LUKWAIZO_UNKNOWN_MARK: return "refused: a record begins with no known mark";
    case LUKWAIZO_CUT: return "refused: the image is cut";
    case LUKWAIZO_AFTER_END: return "refused: a byte follows the end mark";
    case LUKWAIZO_LABEL: return "refused: a label is bad";
    case LUKWAIZO_ORDER: return "refused: channels do not rise, or a task follows a frame";
    default: return "no code of the library";
    }
}

/* Checks the image in a file and prints the answer. 0 if it was read. */
static int check_file(const char *path)
{
    FILE *file = fopen(path, "rb");
    if (file == NULL) {
        perror(path);
        return 2;
    }
    size_t length = fread(image, 1, sizeof image, file);
    int failed = ferror(file);
    if (failed)
        perror(path);
    fclose(file);
    if (failed)
        return 2;
    uint32_t code = lukwaizo_check(image, length);
    printf("%s: %u, %s\n", path, (unsigned)code, meaning(code));
    return 0;
}

static int digit(int c)
{
    if (c >= '0' && c <= '9')
        return c - '0';
    if (c >= 'a' && c <= 'f')
        return c - 'a' + 10;
    if (c >= 'A' && c <= 'F')
        return c - 'A' + 10;
    return -1;
}

/* Checks the images of standard input, one a line. 0 if every line was read. */
static int check_lines(void)
{
    int status = 0, high = -1, bad = 0, begun = 0, c;
    size_t length = 0;
    do {
        c = getchar();
        if (c == '\n' || (c == EOF && begun)) {
            if (bad || high >= 0) {
                puts("bad line");
                status = 2;
            } else {
                printf("%u\n", (unsigned)lukwaizo_check(image, length));
            }
            high = -1;
            bad = begun = 0;
            length = 0;
        } else if (c != EOF) {
            int d = digit(c);
            begun = 1;
            if (d < 0) {
                bad = 1;
            } else if (high < 0) {
                high = d;
            } else {
                if (length < sizeof image)
                    image[length++] = (uint8_t)(high * 16 + d);
                high = -1;
            }
        }
    } while (c != EOF);
    return ferror(stdin) ? 2 : status;
}

int main(int count, char **words)
{
    int status = 0;
    if (count == 2 && strcmp(words[1], "--hex") == 0) {
        status = check_lines();
    } else if (count < 2 || words[1][0] == '-') {
        fprintf(stderr, "usage: %s FILE ..  or  %s --hex\n", words[0], words[0]);
        return 2;
    } else {
        for (int at = 1; at < count; at++)
            status |= check_file(words[at]);
    }
    return fflush(stdout) == 0 ? status : 2;
}
