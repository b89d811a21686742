/* Judges the image in a file: sheet KIND SET IMAGE, as in `sheet 3 0003 card.image`; the set is hexadecimal.
 * Prints the lines that fail and the counts. Exits with 0 for a clean card, with 1 for one that is not clean or is
 * refused, and with 2 where it cannot ask. */
#include <inttypes.h>
#include <stdio.h>
#include <stdlib.h>

#include "suhluva.h"

/* One byte more than an image has at most, so that a larger file is seen to be one. */
static uint8_t image[SUHLUVA_LARGEST_IMAGE + 1];

/* Reads a number that is at most `most` and the whole text. */
static int read_number(const char *text, int base, unsigned long most, unsigned long *number) {
    char *end;
    *number = strtoul(text, &end, base);
    return end != text && *end == '\0' && *number <= most;
}

int main(int argc, char **argv) {
    unsigned long kind, declared;
    if (argc != 4 || !read_number(argv[1], 10, UINT8_MAX, &kind) || !read_number(argv[2], 16, UINT16_MAX, &declared)) {
        fprintf(stderr, "usage: sheet KIND SET IMAGE\n");
        return 2;
    }
    FILE *input = fopen(argv[3], "rb");
    if (input == NULL) {
        perror(argv[3]);
        return 2;
    }
    size_t size = fread(image, 1, sizeof image, input);
    if (ferror(input)) {
        perror(argv[3]);
        return 2;
    }
    fclose(input);
    if (size > SUHLUVA_LARGEST_IMAGE) {
        fprintf(stderr, "more bytes than an image has\n");
        return 2;
    }

    uint64_t position;
    uint8_t states[SUHLUVA_LINES];
    uint64_t places[SUHLUVA_LINES];
    struct suhluva_counts counts;
    uint32_t answer = suhluva_sheet((uint8_t)kind, (uint16_t)declared, image, size, states, places, &counts, &position);
    if (answer == SUHLUVA_MALFORMED_IMAGE) {
        /* It wrote the position, too. This is the call for whoever only wants to know whether it is an image. */
        answer = suhluva_check_image(image, size, &position);
        printf("refusal %" PRIu32 " at %" PRIu64 "\n", answer, position);
        return 1;
    }
    if (answer != SUHLUVA_DONE) {
        printf("refusal %" PRIu32 "\n", answer);
        return 1;
    }

    for (uint32_t line = 0; line < SUHLUVA_LINES; line++) {
        uint8_t number, file;
        if (states[line] == SUHLUVA_FAIL && suhluva_line(line, &number, &file) == SUHLUVA_DONE) {
            printf("case %u of file %u fails at %" PRIu64 "\n", number, file, places[line]);
        }
    }
    printf("%s: %" PRIu32 " pass, %" PRIu32 " fail, %" PRIu32 " not applicable, %" PRIu32 " blocked\n",
           counts.fail == 0 ? "clean" : "not clean", counts.pass, counts.fail, counts.not_applicable, counts.blocked);
    return counts.fail == 0 ? 0 : 1;
}
