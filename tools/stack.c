/* `stack SHEET ..` prints how many bytes of stack each call of the static library takes.
 *
 * A call runs on a stack of its own, which is painted with a pattern before. What is no longer the pattern afterwards was used: the depth goes from
 * the top of that stack down to the lowest byte that changed. What the call of an empty function takes is subtracted. The types, the search and
 * the rotations are measured on every sheet that is named, copying on as many points and copies as there may be; the greatest depth of each
 * is printed. The status is 0 where none is greater than what the header promises. */
#define _XOPEN_SOURCE 700
#include <stdio.h>
#include <stdlib.h>
#include <string.h>
#include <ucontext.h>
#include "jidwaleb.h"

enum { DEPTH = 1 << 20, PAINT = 0xA5, LONGEST = 1 << 17, MEMBERS = 1 << 15, ENTRIES = 1 << 20 };

static unsigned char stack[DEPTH];
static uint8_t sheet[LONGEST];
static size_t sheet_length;
static uint32_t words[524352];
static double floats[65600];
static uint16_t of[8192], types_table[4 * 8192];
static double matrices[16 * MEMBERS];
static uint16_t rows[ENTRIES];
static uint8_t marks[MEMBERS];
static double points[4 * 2048], turns[48 * 9], copies[4 * 2048];
static uint16_t images[48 * 2048];
static size_t dimension, points_length, turns_length;
static uint64_t answer;

static void nothing(void) { answer = 0; }
static void types(void) {
    answer = jidwaleb_types(sheet, sheet_length, words, 524352, floats, 65600, of, 8192, types_table, 4 * 8192);
}
static void search(void) {
    answer = jidwaleb_search(sheet, sheet_length, words, 524352, floats, 65600, matrices, 16 * MEMBERS, rows, ENTRIES, marks, MEMBERS);
}
static void rotations(void) {
    answer = jidwaleb_rotations(sheet, sheet_length, words, 524352, floats, 65600, matrices, 16 * MEMBERS, rows, ENTRIES, marks, MEMBERS);
}
static void copy(void) {
    answer = jidwaleb_copy(dimension, points, points_length, turns, turns_length, copies, 4 * 2048, images, 48 * 2048);
}

static long depth(void (*call)(void)) {
    static ucontext_t here, there;
    memset(stack, PAINT, sizeof stack);
    if (getcontext(&there)) exit(1);
    there.uc_stack.ss_sp = stack;
    there.uc_stack.ss_size = sizeof stack;
    there.uc_link = &here;
    makecontext(&there, call, 0);
    if (swapcontext(&here, &there)) exit(1);
    long clean = 0;
    while (clean < DEPTH && stack[clean] == PAINT) clean++;
    return DEPTH - clean;
}

struct measure {
    const char *name;
    void (*call)(void);
    long most, answered;
};

/* Puts the call's depth into the greatest so far. */
static void take(struct measure *m) {
    long d = depth(m->call);
    if (d > m->most) m->most = d;
    if (JIDWALEB_REFUSAL(answer) == 0) m->answered++;
}

static int load(const char *path) {
    FILE *file = fopen(path, "rb");
    if (!file) return 0;
    sheet_length = fread(sheet, 1, sizeof sheet, file);
    fclose(file);
    return 1;
}

/* Copies 2,048 points of four dimensions under the identity, and then 42 points of three under the 48 signed orders of the axes. */
static void copyings(struct measure *m) {
    static const int order[6][3] = {{0, 1, 2}, {0, 2, 1}, {1, 0, 2}, {1, 2, 0}, {2, 0, 1}, {2, 1, 0}};
    dimension = 4, points_length = 4 * 2048, turns_length = 16;
    for (int i = 0; i < 4 * 2048; i++) points[i] = i;
    for (int i = 0; i < 16; i++) turns[i] = i % 5 == 0;
    take(m);
    dimension = 3, points_length = 3 * 42, turns_length = 48 * 9;
    for (int i = 0; i < 48 * 9; i++) turns[i] = order[i / 72][i / 3 % 3] == i % 3 ? (i / 9 >> (2 - i / 3 % 3) & 1 ? -1 : 1) : 0;
    for (int i = 0; i < 3 * 42; i++) points[i] = i + 1;
    take(m);
}

int main(int count, char **paths) {
    struct measure calls[4] = {{"types", types, 0, 0}, {"search", search, 0, 0}, {"rotations", rotations, 0, 0}, {"copy", copy, 0, 0}};
    long empty = depth(nothing);
    for (int k = 1; k < count; k++) {
        if (!load(paths[k])) {
            fprintf(stderr, "stack: cannot read %s\n", paths[k]);
            return 1;
        }
        for (int c = 0; c < 3; c++) take(&calls[c]);
    }
    copyings(&calls[3]);
    int kept = 1;
    for (int c = 0; c < 4; c++) {
        printf("%-10s %6ld bytes of stack, %ld answers\n", calls[c].name, calls[c].most - empty, calls[c].answered);
        kept &= calls[c].most <= JIDWALEB_MAX_STACK;
    }
    return !kept;
}
