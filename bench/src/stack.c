/*
 * How much stack each function of the archive takes.
 *
 *     stack [--cases N] FONTS..        FONTS: Type 1 font files
 *
 * Each function runs on a stack of its own, painted before the first call. After the last call the lowest word that is
 * not paint any more gives the most that a call took: from the caller's stack pointer down, arguments that are passed
 * on the stack and the return address included. Interrupts and signals would come on top.
 * For Linux on x86-64.
 */
#define _DEFAULT_SOURCE
#include <math.h>
#include <stdio.h>
#include <stdlib.h>
#include <string.h>
#include <sys/mman.h>

#include "cribstork.h"

enum { CONVERT, FINISH, CONVERT_FINISHED, BOX, CHOOSE_WIDTHS, DECRYPT, FUNCTIONS };
enum { FROM_FONTS, RANDOM, DEEPEST, KINDS };

static const char *const names[FUNCTIONS] = {"cribstork_convert", "cribstork_finish", "cribstork_convert_finished",
    "cribstork_box", "cribstork_choose_widths", "cribstork_decrypt"};

static void fail(const char *what, const char *name) {
    fprintf(stderr, "stack: %s %s\n", what, name);
    exit(1);
}

static void *room(size_t n) {
    void *p = malloc(n + 1);
    if (p == NULL)
        fail("out of", "memory");
    return p;
}

/* ---- A call on another stack ---------------------------------------------------------------------------------- */

/* Six integer registers, then `stacked` words that are passed on the stack, and three doubles. */
struct call {
    uint64_t words[16];
    double doubles[3];
};

/* Calls `function` with these arguments and the stack pointer `top`. */
uint64_t on_stack(void *function, const struct call *call, uint64_t stacked, void *top);
__asm__(".text\n"
        "on_stack:\n"
        "    push %rbp\n"
        "    push %rbx\n"
        "    mov %rsp, %rbx\n"
        "    mov %rsi, %rbp\n"
        "    mov %rdi, %rax\n"
        "    lea (%rcx), %rsp\n"
        "    test $1, %dl\n"
        "    jz 1f\n"
        "    sub $8, %rsp\n"
        "1:  test %rdx, %rdx\n"
        "    jz 2f\n"
        "    push 40(%rbp,%rdx,8)\n"
        "    dec %rdx\n"
        "    jmp 1b\n"
        "2:  movsd 128(%rbp), %xmm0\n"
        "    movsd 136(%rbp), %xmm1\n"
        "    movsd 144(%rbp), %xmm2\n"
        "    mov 0(%rbp), %rdi\n"
        "    mov 8(%rbp), %rsi\n"
        "    mov 16(%rbp), %rdx\n"
        "    mov 24(%rbp), %rcx\n"
        "    mov 32(%rbp), %r8\n"
        "    mov 40(%rbp), %r9\n"
        "    call *%rax\n"
        "    mov %rbx, %rsp\n"
        "    pop %rbx\n"
        "    pop %rbp\n"
        "    ret\n");

/* ---- Painted stacks ------------------------------------------------------------------------------------------- */

#define WORDS (1 << 17)
static uint64_t *stacks[FUNCTIONS];

static uint64_t paint_at(const uint64_t *p) { return (uint64_t)(uintptr_t)p * 0x9E3779B97F4A7C15u + 1; }

static void paint_all(void) {
    for (int f = 0; f < FUNCTIONS; f++)
        for (size_t i = 0; i < WORDS; i++)
            stacks[f][i] = paint_at(&stacks[f][i]);
}

static size_t taken(int f) {
    size_t i = 0;
    while (i < WORDS && stacks[f][i] == paint_at(&stacks[f][i]))
        i++;
    if (i == 0)
        fail("the painted stack was used up by", names[f]);
    return 8 * (WORDS - i);
}

static void make_stacks(void) {
    for (int f = 0; f < FUNCTIONS; f++) {
        stacks[f] = mmap(NULL, 8 * WORDS, PROT_READ | PROT_WRITE, MAP_PRIVATE | MAP_ANONYMOUS, -1, 0);
        if (stacks[f] == MAP_FAILED)
            fail("no memory for", "a stack");
    }
}

/* ---- The six functions ---------------------------------------------------------------------------------------- */

#define A(x) ((uint64_t)(uintptr_t)(x))
static uint64_t calls[FUNCTIONS], refused[FUNCTIONS];

static uint64_t count(int f, void *function, const struct call *c, uint64_t stacked) {
    uint64_t number = on_stack(function, c, stacked, stacks[f] + WORDS);
    calls[f]++;
    refused[f] += number != 0;
    return number;
}

struct bytes {
    uint8_t *at;
    size_t n;
};

struct stores {
    cribstork_stem *stems;
    uint64_t *commands;
    uint8_t *program, *out;
    size_t records, words, output;
};

static struct stores lend(size_t records, size_t entries, size_t output) {
    struct stores s = {.records = records, .words = entries * CRIBSTORK_ENTRY_WORDS, .output = output};
    s.stems = memset(room(records * sizeof *s.stems), 0, records * sizeof *s.stems);
    s.commands = memset(room(8 * s.words), 0, 8 * s.words);
    s.program = memset(room(output), 0, output);
    s.out = memset(room(output), 0, output);
    return s;
}

static double matrices[][6] = {
    {1, 0, 0, 1, 0, 0},
    {0.5, 0, 0, 0.5, 0, 0},
    {1, 0, 0.2125, 1, 0, 0},
    {0, 1, -1, 0, 700, 0},
    {1.0 / 3, 0, 0, 1e9, 0.5, 1e300},
    {NAN, 0, 0, 1, 0, 0},
};
#define MATRICES (sizeof matrices / sizeof *matrices)

static void box_of(const uint8_t *program, size_t n) {
    int64_t window[4] = {0, 0, 500 * 65536, 500 * 65536}, box[4];
    uint64_t answer[2];
    struct call c = {.words = {A(program), n, A(window), A(box), A(answer)}};
    count(BOX, (void *)cribstork_box, &c, 0);
}

/* All functions of a glyph: converted in both readings, decrypted, finished with widths of both kinds, and the box of what
   is finished and of its own bytes. */
static void glyph(struct bytes code, struct bytes bank, size_t len_iv, double *matrix, struct stores *s) {
    uint64_t answer[4];
    double width;
    struct call c = {.words = {A(code.at), code.n, A(bank.at), bank.n, len_iv, CRIBSTORK_STRICT, A(matrix), A(s->stems),
                         s->records, A(s->commands), s->words, A(s->program), s->output, A(answer)}};
    count(CONVERT, (void *)cribstork_convert, &c, 8);
    c.words[5] = 0;
    uint64_t number = count(CONVERT, (void *)cribstork_convert, &c, 8);
    size_t n = number == 0 ? (size_t)answer[1] : 0;
    memcpy(&width, &answer[2], sizeof width);
    double widths[3][2] = {{0, 0}, {width, 0}, {0.5, 1e9}};
    for (int i = 0; i < 3; i++) {
        uint64_t two[2];
        struct call f = {.words = {A(s->program), n, A(s->out), s->output - (i == 2), A(two)},
            .doubles = {width, widths[i][0], widths[i][1]}};
        if (s->output > 0 && count(FINISH, (void *)cribstork_finish, &f, 0) == 0)
            box_of(s->out, (size_t)two[1]);
        struct call b = {.words = {A(code.at), code.n, A(bank.at), bank.n, len_iv, i == 1 ? CRIBSTORK_STRICT : 0, A(matrix),
                             A(s->stems), s->records, A(s->commands), s->words, A(s->program), s->output, A(s->out),
                             s->output, A(answer)},
            .doubles = {widths[i][0], widths[i][1]}};
        count(CONVERT_FINISHED, (void *)cribstork_convert_finished, &b, 10);
    }
    struct call d = {.words = {A(code.at), code.n, len_iv, A(s->out), s->output, A(answer)}};
    count(DECRYPT, (void *)cribstork_decrypt, &d, 0);
    box_of(code.at, code.n);
}

static void widths_of(double *list, size_t n, size_t scratch_len) {
    double *scratch = memset(room(8 * scratch_len), 0, 8 * scratch_len);
    double pair[2];
    struct call c = {.words = {A(list), n, A(scratch), scratch_len, A(pair)}};
    count(CHOOSE_WIDTHS, (void *)cribstork_choose_widths, &c, 0);
    free(scratch);
}

/* ---- Numbers at random (xorshift) ----------------------------------------------------------------------------- */

static uint64_t state = 0x5DEECE66D;

static uint64_t any(void) {
    state ^= state << 13;
    state ^= state >> 7;
    state ^= state << 17;
    return state;
}

static size_t below(size_t n) { return any() % n; }

/* ---- Writing charstrings -------------------------------------------------------------------------------------- */

#define MOST (1 << 21)
static uint8_t code_room[MOST], bank_room[MOST];

static void put(struct bytes *b, size_t n, const void *from) {
    if (b->n + n > MOST)
        fail("a case is too", "long");
    memcpy(b->at + b->n, from, n);
    b->n += n;
}
#define PUT(b, ...) put(b, sizeof((uint8_t[]){__VA_ARGS__}), (uint8_t[]){__VA_ARGS__})

static void number(struct bytes *b, int32_t v) {
    if (v >= -107 && v <= 107)
        PUT(b, (uint8_t)(v + 139));
    else
        PUT(b, 255, (uint8_t)(v >> 24), (uint8_t)(v >> 16), (uint8_t)(v >> 8), (uint8_t)v);
}

static struct bytes bank_of(const struct bytes *bodies, size_t n) {
    struct bytes b = {bank_room, 0};
    uint32_t end = 0;
    PUT(&b, (uint8_t)(n >> 8), (uint8_t)n, 0, 0, 0, 0);
    for (size_t i = 0; i < n; i++) {
        end += (uint32_t)bodies[i].n;
        PUT(&b, (uint8_t)(end >> 24), (uint8_t)(end >> 16), (uint8_t)(end >> 8), (uint8_t)end);
    }
    for (size_t i = 0; i < n; i++)
        put(&b, bodies[i].n, bodies[i].at);
    return b;
}

/* A flex: OtherSubr 1, seven points by OtherSubr 2, OtherSubr 0, and the current point set. */
static void flex(struct bytes *b) {
    PUT(b, 0x8B, 0x8C, 12, 16);
    for (int i = 0; i < 7; i++)
        PUT(b, (uint8_t)(0x80 + i), 0x90, 21, 0x8B, 0x8D, 12, 16);
    PUT(b, 0xBD, 0x8B, 0x8B, 0x8E, 0x8B, 12, 16, 12, 17, 12, 17, 12, 33);
}

/* ---- Fonts ---------------------------------------------------------------------------------------------------- */

static const uint8_t *find(struct bytes b, size_t from, const char *word) {
    size_t n = strlen(word);
    for (size_t i = from; i + n <= b.n; i++)
        if (memcmp(b.at + i, word, n) == 0)
            return b.at + i + n;
    return NULL;
}

static void decrypt_eexec(struct bytes *b) {
    uint16_t key = 55665;
    for (size_t i = 0; i < b->n; i++) {
        uint8_t c = b->at[i];
        b->at[i] = c ^ (uint8_t)(key >> 8);
        key = (uint16_t)((c + key) * 52845u + 22719u);
    }
}

static int digit(uint8_t c) {
    return c >= '0' && c <= '9' ? c - '0' : (c | 32) >= 'a' && (c | 32) <= 'f' ? (c | 32) - 'a' + 10 : -1;
}

/* The file with its PFB segments joined. */
static struct bytes read_file(const char *path) {
    FILE *f = fopen(path, "rb");
    struct bytes all = {room(MOST), 0};
    if (f == NULL)
        fail("cannot read", path);
    all.n = fread(all.at, 1, MOST, f);
    fclose(f);
    size_t to = 0, at = 0;
    while (at + 6 <= all.n && all.at[at] == 0x80 && all.at[at + 1] < 3) {
        uint8_t *h = all.at + at;
        size_t n = h[2] | h[3] << 8 | h[4] << 16 | (size_t)h[5] << 24;
        if (n > all.n - at - 6)
            fail("a segment is cut in", path);
        memmove(all.at + to, h + 6, n);
        to += n, at += 6 + n;
    }
    if (at > 0)
        all.n = to;
    all.at[all.n] = 0;
    return all;
}

/* A length, the word RD or -|, one blank, then as many bytes. */
static const uint8_t *binary(const uint8_t *p, const uint8_t *end, struct bytes *body) {
    char *next;
    long n = strtol((const char *)p, &next, 10);
    p = (const uint8_t *)next;
    while (p < end && *p == ' ')
        p++;
    while (p < end && *p != ' ')
        p++;
    if (n < 0 || n >= end - p)
        return NULL;
    body->at = (uint8_t *)p + 1;
    body->n = (size_t)n;
    return p + 1 + n;
}

static size_t fonts, glyphs;

static void font(const char *path, struct stores *s) {
    struct bytes file = read_file(path), none = {NULL, 0};
    const uint8_t *p = find(file, 0, "eexec");
    if (p == NULL)
        fail("no eexec in", path);
    while (*p == ' ' || *p == '\n' || *p == '\r' || *p == '\t')
        p++;
    struct bytes private = {(uint8_t *)p, (size_t)(file.at + file.n - p)};
    if (digit(p[0]) >= 0 && digit(p[1]) >= 0 && digit(p[2]) >= 0 && digit(p[3]) >= 0) {
        size_t digits = 0;
        for (size_t i = 0; i < private.n; i++) {
            int d = digit(p[i]);
            if (d >= 0) {
                private.at[digits / 2] = (uint8_t)(digits % 2 ? private.at[digits / 2] | d : d << 4);
                digits++;
            }
        }
        private.n = digits / 2;
    }
    decrypt_eexec(&private);
    const uint8_t *end = private.at + private.n;

    p = find(private, 4, "/lenIV");
    long len_iv = p ? strtol((const char *)p, NULL, 10) : 4;
    p = find(private, 4, "/Subrs");
    size_t subrs = p ? strtoul((const char *)p, NULL, 10) : 0;
    struct bytes *bodies = room(subrs * sizeof none);
    for (size_t i = 0; i < subrs; i++)
        bodies[i] = none;
    const uint8_t *chars = find(private, 4, "/CharStrings");
    if (chars == NULL)
        fail("no CharStrings in", path);
    while (p != NULL && (p = find(private, (size_t)(p - private.at), "dup ")) != NULL && p < chars) {
        char *next;
        size_t n = strtoul((const char *)p, &next, 10);
        if (n >= subrs || (p = binary((const uint8_t *)next, end, &bodies[n])) == NULL)
            fail("a subroutine is cut in", path);
    }
    struct bytes bank = bank_of(bodies, subrs);
    double widths[1 << 14];
    size_t listed = 0;
    fonts++;
    for (p = chars; (p = memchr(p, '/', (size_t)(end - p))) != NULL;) {
        struct bytes code;
        while (p < end && *p != ' ')
            p++;
        if (*p != ' ' || p[1] < '0' || p[1] > '9' || (p = binary(p, end, &code)) == NULL)
            break;
        glyphs++;
        for (size_t m = 0; m < MATRICES; m++)
            glyph(code, bank, len_iv < 0 ? CRIBSTORK_NOT_ENCRYPTED : (size_t)len_iv, matrices[m], s);
        uint64_t answer[4];
        if (listed < sizeof widths / sizeof *widths
            && cribstork_convert(code.at, code.n, bank.at, bank.n, (size_t)len_iv, 0, matrices[0], s->stems, s->records,
                   s->commands, s->words, s->out, s->output, answer) == 0)
            memcpy(&widths[listed++], &answer[2], 8);
    }
    widths_of(widths, listed, listed);
    free(bodies);
    free(file.at);
}

/* ---- Random charstrings --------------------------------------------------------------------------------------- */

static const uint8_t operators[] = {1, 3, 4, 5, 6, 7, 8, 9, 10, 11, 13, 14, 21, 22, 30, 31, 0, 2, 15};
static const uint8_t escapes[] = {0, 1, 2, 6, 7, 12, 12, 12, 16, 16, 17, 33, 3, 34};

static void piece(struct bytes *b, size_t subrs) {
    switch (below(24)) {
    case 0:
        if (below(4) > 0)
            PUT(b, 0x8C, 22);
        flex(b);
        break;
    case 1:
        PUT(b, (uint8_t)any());
        break;
    case 2:
    case 3:
        for (size_t n = below(7); n > 0; n--)
            number(b, (int32_t)below(200) - 100);
        PUT(b, 12, escapes[below(sizeof escapes)]);
        break;
    case 4:
        if (subrs > 0) {
            number(b, (int32_t)below(subrs));
            PUT(b, 10);
        }
        break;
    case 5: /* Hint replacement. */
        PUT(b, 0x8E, 0x8C, 0x8E, 12, 16, 12, 17);
        break;
    case 6:
    case 7:
        number(b, 20 * (int32_t)below(40));
        PUT(b, (uint8_t)(0x8B + 10 * below(4)), (uint8_t)(below(2) ? 1 : 3));
        break;
    case 8:
        number(b, (int32_t)any());
        break;
    default:
        for (size_t n = 6; n > 0; n--)
            number(b, (int32_t)below(300) - 150);
        PUT(b, operators[below(sizeof operators)]);
    }
}

static void random_cases(size_t cases) {
    struct stores small = lend(12, 12, 120), usual = lend(256, 256, 4096), none = lend(0, 0, 0);
    for (size_t i = 0; i < cases; i++) {
        static uint8_t body_room[16][4096];
        struct bytes bodies[16], code = {code_room, 0};
        size_t subrs = below(16);
        for (size_t n = 0; n < subrs; n++) {
            bodies[n] = (struct bytes){body_room[n], 0};
            for (size_t pieces = below(8); pieces > 0; pieces--)
                piece(&bodies[n], subrs);
            if (n > 0 && below(2)) {
                number(&bodies[n], (int32_t)n - 1);
                PUT(&bodies[n], 10);
            }
        }
        for (size_t pieces = below(40); pieces > 0; pieces--)
            piece(&code, subrs);
        if (below(2))
            PUT(&code, 14);
        struct stores *s = below(8) == 0 ? &none : below(3) == 0 ? &small : &usual;
        size_t len_iv = below(3) == 0 ? below(6) : CRIBSTORK_NOT_ENCRYPTED;
        glyph(code, bank_of(bodies, subrs), len_iv, matrices[below(MATRICES)], s);
        if (i % 16 == 0) {
            double list[512];
            size_t n = below(512);
            for (size_t k = 0; k < n; k++) {
                uint64_t bits = any();
                list[k] = (double)below(1500);
                if (i % 64 == 0)
                    memcpy(&list[k], &bits, 8);
            }
            widths_of(list, n, n + below(3) - (n > 0));
        }
    }
}

/* ---- The deepest --------------------------------------------------------------------------------------------- */

/* The code in a subroutine, so many levels down: subroutine n calls n - 1. */
static void nested(struct bytes code, size_t levels, struct stores *s) {
    static const uint8_t call[16][2] = {{0x8B, 10}, {0x8C, 10}, {0x8D, 10}, {0x8E, 10}, {0x8F, 10}, {0x90, 10},
        {0x91, 10}, {0x92, 10}, {0x93, 10}, {0x94, 10}, {0x95, 10}, {0x96, 10}};
    struct bytes bodies[16] = {code}, own;
    for (size_t n = 1; n < levels; n++)
        bodies[n] = (struct bytes){(uint8_t *)call[n - 1], 2};
    struct bytes bank = bank_of(bodies, levels);
    own = levels == 0 ? code : (struct bytes){(uint8_t *)call[levels - 1], 2};
    for (size_t m = 0; m < MATRICES; m++)
        glyph(own, bank, CRIBSTORK_NOT_ENCRYPTED, matrices[m], s);
}

static void at_all_depths(struct bytes code, struct stores *s) {
    for (size_t levels = 0; levels < 12; levels++)
        nested(code, levels, s);
}

/* Groups of stems, each with a line, of `edges` different stems. */
static void groups(struct bytes *b, int n, int stems, int edges) {
    for (int g = 0; g < n; g++) {
        PUT(b, 0x8B, 0x8E, 12, 16);
        for (int i = 0; i < stems; i++) {
            number(b, (g * 7 + i * 2) % edges);
            PUT(b, 0x8C, (uint8_t)(i % 2 ? 1 : 3));
        }
        PUT(b, 0x8C, 0x8D, 5);
    }
}

/* Each partition's pivot is the second largest element, so that one level takes two elements only. */
static void against_partitions(size_t n) {
    double *list = room(8 * n);
    size_t *left = room(sizeof *left * n), rest = n;
    for (size_t i = 0; i < n; i++) {
        list[i] = (double)(i * 7919 % 101);
        left[i] = i;
    }
    for (int level = 0; level < 60 && rest > 8; level++) {
        size_t a = rest / 4, b = rest / 2;
        list[left[a]] = 2000 - 2 * level;
        list[left[b]] = 1999 - 2 * level;
        memmove(left + b, left + b + 1, sizeof *left * (rest - b - 1));
        memmove(left + a, left + a + 1, sizeof *left * (rest - a - 2));
        rest -= 2;
    }
    widths_of(list, n, n);
    free(left);
    free(list);
}

static void deepest(void) {
    struct stores ample = lend(25000, 1024, 65536), usual = lend(256, 256, 4096), none = lend(0, 0, 0);
    struct stores *each[] = {&ample, &usual, &none};
    static const uint8_t singles[] = {1, 3, 4, 5, 6, 7, 8, 9, 10, 11, 13, 14, 21, 22, 30, 31, 0};
    for (int k = 0; k < 3; k++) {
        struct stores *s = each[k];
        struct bytes c = {code_room, 0};
        at_all_depths(c, s);
        /* Every operator and escape, with operands and without, after a stem and a path. */
        for (size_t i = 0; i < sizeof singles + 35; i++)
            for (int with = 0; with < 2; with++) {
                c.n = 0;
                PUT(&c, 0x8B, 0x95, 1, 0x95, 0x9F, 21, 0x90, 0x8C, 5);
                if (with)
                    PUT(&c, 0x8C, 0x8D, 0x8E, 0x8F, 0x90, 0x91);
                if (i < sizeof singles)
                    PUT(&c, singles[i]);
                else
                    PUT(&c, 12, (uint8_t)(i - sizeof singles));
                at_all_depths(c, s);
            }
        /* Full stacks: operands, and PostScript values by an unknown OtherSubr. */
        for (int over = 0; over < 3; over++) {
            c.n = 0;
            for (int i = 0; i < 254 + over; i++)
                PUT(&c, 0x8C);
            at_all_depths(c, s);
            if (over == 0) {
                number(&c, 252);
                PUT(&c, 0x95, 12, 16, 0x8C, 0x8D, 0x8E, 0x8F, 0x8F, 0x95, 12, 16);
                at_all_depths(c, s);
                PUT(&c, 0x8C, 0x8C, 0x95, 12, 16);
                at_all_depths(c, s);
            }
        }
        /* Flexes, in a subpath that a move opens. */
        c.n = 0;
        PUT(&c, 0x8C, 22);
        for (int i = 0; i < 40; i++)
            flex(&c);
        at_all_depths(c, s);
        static const int shapes[][3] = {{1, 96, 192}, {2, 96, 96}, {3, 48, 96}, {256, 2, 96}, {255, 96, 192},
            {257, 1, 96}, {2, 256, 512}, {1, 257, 600}, {2, 97, 400}};
        for (size_t i = 0; i < sizeof shapes / sizeof *shapes; i++) {
            c.n = 0;
            groups(&c, shapes[i][0], shapes[i][1], shapes[i][2]);
            at_all_depths(c, s);
        }
    }
    /* As many bytes as may run, and one more. */
    struct stores large = lend(256, 349526, MOST);
    struct bytes c = {code_room, 0};
    while (c.n < 1048572)
        PUT(&c, 0x8C, 0x8A, 5);
    PUT(&c, 9, 9, 9, 9);
    nested(c, 0, &large);
    PUT(&c, 9);
    nested(c, 0, &large);
    static const size_t lengths[] = {0, 1, 2, 3, 10, 100, 150, 1000, 65535};
    for (size_t i = 0; i < sizeof lengths / sizeof *lengths; i++) {
        size_t n = lengths[i];
        against_partitions(n);
        double *list = room(8 * n);
        for (int order = 0; order < 4; order++) {
            for (size_t k = 0; k < n; k++)
                list[k] = order == 0 ? (double)k : order == 1 ? (double)(n - k) : order == 2 ? 500 : (double)below(1500);
            widths_of(list, n, n);
        }
        free(list);
    }
}

/* --------------------------------------------------------------------------------------------------------------- */

int main(int argc, char **argv) {
    size_t cases = 200000, most[FUNCTIONS][KINDS] = {0};
    int first = 1;
    if (argc > 2 && strcmp(argv[1], "--cases") == 0) {
        cases = strtoul(argv[2], NULL, 10);
        first = 3;
    }
    make_stacks();
    struct stores usual = lend(1024, 1024, 16384);
    for (int kind = 0; kind < KINDS; kind++) {
        paint_all();
        if (kind == FROM_FONTS)
            for (int i = first; i < argc; i++)
                font(argv[i], &usual);
        else if (kind == RANDOM)
            random_cases(cases);
        else
            deepest();
        for (int f = 0; f < FUNCTIONS; f++)
            most[f][kind] = taken(f);
    }
    printf("fonts: %zu; glyphs: %zu; random charstrings: %zu\n", fonts, glyphs, cases);
    printf("%-28s %10s %10s %10s %12s %12s\n", "most bytes of stack", "fonts", "random", "deepest", "calls", "refused");
    for (int f = 0; f < FUNCTIONS; f++)
        printf("%-28s %10zu %10zu %10zu %12llu %12llu\n", names[f], most[f][0], most[f][1], most[f][2],
            (unsigned long long)calls[f], (unsigned long long)refused[f]);
    return 0;
}
