/* Converts the glyph that document 01 works through, prints its program, finishes it, and asks for its box. */
#include <stdio.h>
#include <string.h>

#include "cribstork.h"

/* Stem records, and words of the command store for 256 entries. */
#define STEMS 256
#define WORDS (256 * CRIBSTORK_ENTRY_WORDS)

static void print_bytes(const char *label, const uint8_t *bytes, size_t n) {
    printf("%s", label);
    for (size_t i = 0; i < n; i++)
        printf(" %02X", bytes[i]);
    printf("\n");
}

int main(void) {
    /* 0 500 hsbw, 10 20 rmoveto, 5 0 rlineto, closepath, endchar; not encrypted. */
    static const uint8_t glyph[] = {0x8B, 0xF8, 0x88, 0x0D, 0x95, 0x9F, 0x15, 0x90, 0x8B, 0x05, 0x09, 0x0E};
    static const uint8_t bank[] = {0, 0, 0, 0, 0, 0};
    static const double identity[6] = {1, 0, 0, 1, 0, 0};
    static cribstork_stem stems[STEMS];
    static uint64_t commands[WORDS];
    static uint8_t program[4096], out[4096];
    uint64_t answer[4];

    uint64_t number = cribstork_convert(glyph, sizeof glyph, bank, sizeof bank, CRIBSTORK_NOT_ENCRYPTED, 0, identity,
        stems, STEMS, commands, WORDS, program, sizeof program, answer);
    if (number != 0) {
        printf("refused: %llu\n", (unsigned long long)number);
        return 1;
    }
    size_t length = (size_t)answer[1];
    double width;
    memcpy(&width, &answer[2], sizeof width);
    print_bytes("program:", program, length);
    printf("width: %g\n", width);
    printf("bytes run: %llu\n", (unsigned long long)answer[3]);

    /* With the default width 500 nothing is added; with 0 and 0 the width comes first. */
    static const double defaults[2] = {500, 0};
    for (int i = 0; i < 2; i++) {
        uint64_t finished[2];
        number = cribstork_finish(width, program, length, defaults[i], 0, out, sizeof out, finished);
        if (number != 0) {
            printf("refused: %llu\n", (unsigned long long)number);
            return 1;
        }
        printf("default %g, nominal 0, ", defaults[i]);
        print_bytes("finished:", out, (size_t)finished[1]);
    }

    /* The same in one call. */
    number = cribstork_convert_finished(glyph, sizeof glyph, bank, sizeof bank, CRIBSTORK_NOT_ENCRYPTED, 0, identity,
        stems, STEMS, commands, WORDS, program, sizeof program, 0, 0, out, sizeof out, answer);
    if (number != 0) {
        printf("refused: %llu\n", (unsigned long long)number);
        return 1;
    }
    print_bytes("in one call:", out, (size_t)answer[1]);

    /* Its box in 1/65536, and a window from (0, 0) to (15, 20): 1 within, 2 crossing, 3 outside. */
    static const int64_t window[4] = {0, 0, 15 * 65536, 20 * 65536};
    int64_t box[4];
    uint64_t fits[2];
    number = cribstork_box(out, (size_t)answer[1], window, box, fits);
    printf("box: %llu, from (%g, %g) to (%g, %g), %llu\n", (unsigned long long)number, box[0] / 65536.0,
        box[1] / 65536.0, box[2] / 65536.0, box[3] / 65536.0, (unsigned long long)fits[1]);

    static const double widths[3] = {500, 500, 600};
    double scratch[3], pair[2];
    number = cribstork_choose_widths(widths, 3, scratch, 3, pair);
    printf("widths: %llu, %g and %g\n", (unsigned long long)number, pair[0], pair[1]);

    static const uint8_t cipher[2] = {0, 0};
    number = cribstork_decrypt(cipher, 2, 0, out, sizeof out, answer);
    print_bytes("decrypted:", out, (size_t)answer[1]);

    /* A refusal: 1 div by 0. */
    static const uint8_t bad[] = {0x8C, 0x8B, 0x0C, 0x0C};
    number = cribstork_convert(bad, sizeof bad, bank, sizeof bank, CRIBSTORK_NOT_ENCRYPTED, 0, identity,
        stems, STEMS, commands, WORDS, program, sizeof program, answer);
    printf("1 0 div: refused with %llu\n", (unsigned long long)number);

    /* 25 operands, as the board reads them and strictly. */
    static uint8_t deep[25];
    static const uint64_t readings[2] = {0, CRIBSTORK_STRICT};
    memset(deep, 0x8B, sizeof deep);
    for (int i = 0; i < 2; i++) {
        number = cribstork_convert(deep, sizeof deep, bank, sizeof bank, CRIBSTORK_NOT_ENCRYPTED, readings[i], identity,
            stems, STEMS, commands, WORDS, program, sizeof program, answer);
        printf("25 operands%s: %llu\n", i == 0 ? "" : ", strict", (unsigned long long)number);
    }
    return 0;
}
