// Lines per second of the core and of libfec's RS codec on the same lines, in one run.
#include <fec.h>
#include <stdint.h>
#include <stdio.h>
#include <stdlib.h>
#include <string.h>
#include <time.h>

uint32_t l32_form(const uint16_t *message, size_t message_len, uint16_t *line, size_t line_len);
uint32_t l32_mend(uint16_t *line, size_t line_len, uint16_t *message, size_t message_len);
uint32_t l32_write(const uint64_t *bodies, size_t bodies_len, uint16_t *line, size_t line_len);
uint32_t l32_read(uint16_t *line, size_t line_len, uint64_t *bodies, size_t bodies_len);

enum { N = 528, K = 514, LINES = 4096, TURNS = 2, WORDS = 80 };

static uint16_t lines[LINES][N], spoilt[LINES][N], scratch[N], message[K];
static uint64_t bodies[LINES][WORDS], read_back[WORDS];
static uint16_t sent[LINES][N];
static uint32_t state = 1;

static uint32_t next(void) {
    state = state * 1664525u + 1013904223u;
    return state >> 8;
}

static double now(void) {
    struct timespec t;
    clock_gettime(CLOCK_MONOTONIC, &t);
    return t.tv_sec + t.tv_nsec * 1e-9;
}

// `wrong` different places of each line get another value.
static void spoil(uint16_t from[LINES][N], int wrong) {
    for (int i = 0; i < LINES; i++) {
        memcpy(spoilt[i], from[i], sizeof spoilt[i]);
        char hit[N] = {0};
        for (int e = 0; e < wrong;) {
            int place = next() % N;
            if (hit[place]) continue;
            hit[place] = 1;
            spoilt[i][place] ^= 1 + next() % 1023;
            e++;
        }
    }
}

static long refused, other;
static void *rs;

static void ours_form(int i) { l32_form(lines[i], K, scratch, N); }
static void ours_mend(int i) {
    memcpy(scratch, spoilt[i], sizeof scratch);
    if (l32_mend(scratch, N, message, K) >= 1000) refused++;
    else if (memcmp(scratch, lines[i], sizeof scratch)) other++;
}
static void ours_write(int i) { l32_write(bodies[i], WORDS, scratch, N); }
static void ours_read(int i) {
    memcpy(scratch, spoilt[i], sizeof scratch);
    if (l32_read(scratch, N, read_back, WORDS) >= 1000) refused++;
    else if (memcmp(read_back, bodies[i], sizeof read_back)) other++;
}
static int ints[N];
static void fec_form(int i) {
    for (int s = 0; s < K; s++) ints[s] = lines[i][s];
    encode_rs_int(rs, ints, ints + K);
}
static void fec_mend(int i) {
    for (int s = 0; s < N; s++) ints[s] = spoilt[i][s];
    if (decode_rs_int(rs, ints, NULL, 0) < 0) refused++;
    else for (int s = 0; s < N; s++) if (ints[s] != lines[i][s]) { other++; break; }
}

static void run(const char *name, void (*call)(int)) {
    double best = 1e9;
    for (int pass = 0; pass < 5; pass++) {
        refused = other = 0;
        double start = now();
        for (int turn = 0; turn < TURNS; turn++)
            for (int i = 0; i < LINES; i++) call(i);
        double each = (now() - start) / (TURNS * LINES);
        if (each < best) best = each;
    }
    printf("%-44s %9.2f us %10.0f lines/s   refused %4ld, other %4ld of %d\n", name, best * 1e6, 1 / best, refused / TURNS, other / TURNS, LINES);
}

int main(void) {
    rs = init_rs_int(10, 0x409, 0, 1, 14, 495);
    if (!rs) return 1;
    int differ = 0;
    for (int i = 0; i < LINES; i++) {
        for (int s = 0; s < K; s++) message[s] = next() % 1024;
        l32_form(message, K, lines[i], N);
        memcpy(lines[i], message, sizeof message);
        fec_form(i);
        for (int s = 0; s < N; s++) if (ints[s] != lines[i][s]) { differ++; break; }
        for (int w = 0; w < WORDS; w++) bodies[i][w] = (uint64_t)next() << 40 ^ (uint64_t)next() << 20 ^ next();
        l32_write(bodies[i], WORDS, sent[i], N);
    }
    printf("code words that differ from libfec's: %d of %d\n", differ, LINES);
    run("core form", ours_form);
    run("libfec encode", fec_form);
    int counts[] = {0, 1, 3, 7, 8, 12};
    for (int k = 0; k < 6; k++) {
        char name[64];
        spoil(lines, counts[k]);
        snprintf(name, sizeof name, "core mend, %d wrong", counts[k]);
        run(name, ours_mend);
        snprintf(name, sizeof name, "libfec decode, %d wrong", counts[k]);
        run(name, fec_mend);
    }
    run("core port write, scrambled", ours_write);
    int port_counts[] = {0, 7, 12};
    for (int k = 0; k < 3; k++) {
        char name[64];
        spoil(sent, port_counts[k]);
        snprintf(name, sizeof name, "core port read, scrambled, %d wrong", port_counts[k]);
        run(name, ours_read);
    }
    return 0;
}
