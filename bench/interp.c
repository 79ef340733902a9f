/* A plain interpreter of the same instructions in C, to compare the proved processor with. It keeps no marks of what was written and looks for no
   breaks; a kept state is a copy of all its words. */
#include <stdint.h>
#include <stdio.h>
#include <stdlib.h>
#include <string.h>
#include <time.h>

enum { LOAD, COPY, RECKON, READ, WRITE, JUMP, JUMP_IF, CALL, RETURN, IN, OUT, HALT };
enum { WORDS = 65536, STRIDE = 4096, STRIDES = 10000 };

typedef struct {
    uint8_t op, sub, r, s;
    uint32_t n;
} Instr;

typedef struct {
    uint32_t at, regs[16], *words;
    size_t taken;
    uint32_t *out;
    size_t outs, room;
} State;

static void put_out(State *s, uint32_t v) {
    if (s->outs == s->room) {
        s->room = s->room ? 2 * s->room : 16;
        s->out = realloc(s->out, sizeof *s->out * s->room);
        if (!s->out) exit(1);
    }
    s->out[s->outs++] = v;
}

__attribute__((noinline)) static uint64_t goes(State *s, const Instr *p, size_t len, const uint32_t *fed, size_t fed_len, uint64_t n) {
    uint64_t by = 0;
    uint32_t at = s->at, *g = s->regs, *w = s->words;
    while (by < n) {
        if (at >= len) break;
        const Instr *i = &p[at];
        switch (i->op) {
        case LOAD: g[i->r] = i->n; at++; break;
        case COPY: g[i->r] = g[i->s]; at++; break;
        case RECKON: {
            uint32_t a = g[i->r], b = g[i->s], v;
            switch (i->sub) {
            case 0: v = a + b; break;
            case 1: v = a - b; break;
            case 2: v = a * b; break;
            case 3: if (!b) goto end; v = a / b; break;
            case 4: if (!b) goto end; v = a % b; break;
            case 5: v = a & b; break;
            case 6: v = a | b; break;
            case 7: v = a ^ b; break;
            case 8: v = a << (b & 31); break;
            default: v = a >> (b & 31); break;
            }
            g[i->r] = v; at++; break;
        }
        case READ: { uint64_t a = (uint64_t)g[i->s] + i->n; if (a >= WORDS) goto end; g[i->r] = w[a]; at++; break; }
        case WRITE: { uint64_t a = (uint64_t)g[i->s] + i->n; if (a >= WORDS) goto end; w[a] = g[i->r]; at++; break; }
        case JUMP: at = i->n; break;
        case JUMP_IF: {
            uint32_t a = g[i->r], b = g[i->s];
            int c;
            switch (i->sub) {
            case 0: c = a == b; break;
            case 1: c = a != b; break;
            case 2: c = a < b; break;
            default: c = a >= b; break;
            }
            at = c ? i->n : at + 1; break;
        }
        case CALL: { uint32_t t = g[15]; if (t == 0 || t > WORDS) goto end; w[t - 1] = at + 1; g[15] = t - 1; at = i->n; break; }
        case RETURN: { uint32_t a = g[15]; if (a >= WORDS) goto end; at = w[a]; g[15] = a + 1; break; }
        case IN: if (s->taken >= fed_len) goto end; g[i->r] = fed[s->taken++]; at++; break;
        case OUT: put_out(s, g[i->r]); at++; break;
        default: goto end;
        }
        by++;
    }
end:
    s->at = at;
    return by;
}

/* The programs of box.asm and sweep.asm. */
static const Instr box[] = {
    {LOAD, 0, 15, 0, 1000}, {LOAD, 0, 7, 0, 20}, {LOAD, 0, 1, 0, 10}, {LOAD, 0, 2, 0, 5}, {JUMP_IF, 0, 2, 3, 10}, {READ, 0, 4, 1, 0},
    {RECKON, 0, 4, 2, 0}, {WRITE, 0, 4, 1, 0}, {CALL, 0, 0, 0, 12}, {JUMP, 0, 0, 0, 3}, {OUT, 0, 4, 0, 0}, {HALT, 0, 0, 0, 0},
    {READ, 0, 5, 1, 1}, {LOAD, 0, 6, 0, 1}, {RECKON, 0, 5, 6, 0}, {JUMP_IF, 3, 4, 7, 17}, {WRITE, 0, 5, 1, 1}, {WRITE, 0, 4, 1, 1}, {RETURN, 0, 0, 0, 0},
};
static const Instr sweep[] = {
    {LOAD, 0, 1, 0, 0}, {LOAD, 0, 6, 0, 1}, {LOAD, 0, 7, 0, 65535}, {WRITE, 0, 1, 1, 0}, {RECKON, 0, 1, 6, 0}, {RECKON, 5, 1, 7, 0}, {JUMP, 0, 0, 0, 3},
};

static long long now(void) {
    struct timespec t;
    clock_gettime(CLOCK_MONOTONIC, &t);
    return t.tv_sec * 1000000LL + t.tv_nsec / 1000;
}

static void timed(const char *name, const Instr *p, size_t len, int keep) {
    State s = {0}, *slots = calloc(256, sizeof *slots);
    uint32_t fed[1] = {0};
    uint64_t by = 0;
    s.words = calloc(WORDS, sizeof *s.words);
    for (int k = 0; keep && k < 256; k++) {
        slots[k].words = malloc(WORDS * sizeof *s.words);
        memset(slots[k].words, 0, WORDS * sizeof *s.words);
    }
    long long begun = now();
    for (int k = 0; k < STRIDES; k++) {
        by += goes(&s, p, len, fed, 0, STRIDE);
        if (keep) {
            State *q = &slots[k & 255];
            uint32_t *w = q->words;
            memcpy(w, s.words, WORDS * sizeof *w);
            *q = s;
            q->words = w;
        }
    }
    printf("%s %lld us, %llu steps, at %u\n", name, now() - begun, (unsigned long long)by, s.at);
}

int main(int argc, char **argv) {
    if (argc != 2) return 1;
    int is_box = !strcmp(argv[1], "box");
    const Instr *p = is_box ? box : sweep;
    size_t len = is_box ? sizeof box / sizeof *box : sizeof sweep / sizeof *sweep;
    timed("c-plain", p, len, 0);
    timed("c-kept", p, len, 1);
    return 0;
}
