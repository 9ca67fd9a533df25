/* `link_test SHEET` prints what `kit` prints for a sheet. It lends the calls as much space as `kit` does, and it too refuses a sheet of more than
 * 8,192 bytes. `link_test` alone copies a point by quarter turns, and then by one of them; it makes every call with null for buffers of length 0, and
 * looks at the version. */
#include <stdio.h>
#include <string.h>
#include "jidwaleb.h"

enum { LONGEST = 8192 };
static uint8_t sheet[LONGEST + 1];
static uint32_t words[4096];
static double floats[2048];
static uint16_t of[256], table[4 * 256];
static double matrices[1024];
static uint16_t rows[8192];
static uint8_t marks[512];

/* Prints why a call was refused, and says whether it was. */
static int is_refused(uint64_t answer) {
    enum jidwaleb_refusal why = JIDWALEB_REFUSAL(answer);
    if (why == JIDWALEB_DONE) return 0;
    printf("refused %u\n", (unsigned)why);
    return 1;
}

static void members(size_t length) {
    uint64_t answer = jidwaleb_search(sheet, length, words, 4096, floats, 2048, matrices, 1024, rows, 8192, marks, 512);
    if (is_refused(answer)) return;
    unsigned confirmed = 0;
    for (unsigned k = 0; k < JIDWALEB_COUNT(answer); k++) confirmed += marks[k];
    uint64_t rotations = jidwaleb_rotations(sheet, length, words, 4096, floats, 2048, matrices, 1024, rows, 8192, marks, 512);
    printf("members %u confirmed %u rotations %u\n", (unsigned)JIDWALEB_COUNT(answer), confirmed, (unsigned)JIDWALEB_COUNT(rotations));
}

static int kit(const char *path) {
    FILE *file = fopen(path, "rb");
    if (!file) return 1;
    size_t length = fread(sheet, 1, sizeof sheet, file);
    fclose(file);
    if (length > LONGEST) {
        printf("refused %u\n", (unsigned)JIDWALEB_CUT_SHEET);
        return 0;
    }
    uint64_t answer = jidwaleb_types(sheet, length, words, 4096, floats, 2048, of, 256, table, 4 * 256);
    if (is_refused(answer)) return 0;
    printf("types %u\n", (unsigned)JIDWALEB_COUNT(answer));
    for (const uint16_t *t = table; t < table + 4 * JIDWALEB_COUNT(answer); t += 4)
        printf("%u %u %u %u\n", t[0], t[1], t[2], t[3]);
    members(length);
    return 0;
}

static const double point[2] = {1, 0}, turns[16] = {1, 0, 0, 1, 0, -1, 1, 0, -1, 0, 0, -1, 0, 1, -1, 0};
static double out[8];
static uint16_t images[16];

static int copies(void) {
    uint64_t answer = jidwaleb_copy(2, point, 2, turns, 16, out, 8, images, 16);
    printf("copies %u\n", (unsigned)JIDWALEB_COUNT(answer));
    printf("quarter turn %u %u %u %u\n", images[4], images[5], images[6], images[7]);
    answer = jidwaleb_copy(2, point, 2, turns + 4, 4, out, 8, images, 16);
    printf("refused %u: %s\n", (unsigned)JIDWALEB_REFUSAL(answer), JIDWALEB_REFUSAL(answer) == JIDWALEB_OPEN ? "open" : "?");
    return images[0] == 65535 && images[1] != 65535;
}

static int is(const char *what, uint64_t answer, enum jidwaleb_refusal why, uint32_t count) {
    if (JIDWALEB_REFUSAL(answer) == why && JIDWALEB_COUNT(answer) == count) return 1;
    printf("%s: refusal %u, count %u\n", what, (unsigned)JIDWALEB_REFUSAL(answer), (unsigned)JIDWALEB_COUNT(answer));
    return 0;
}

/* A pointer may be null where its length is 0. Null is never mapped, so a call that touched such a buffer would not come back. The one byte 32 is
 * a sheet of rank 1, which has no proper element: its types fit into no cells at all. The bytes of `pair` are two corners on a line, at -1 and 1. */
static int empty_buffers(void) {
    static const uint8_t least[1] = {32}, pair[19] = {68, 0, 175, 252, 0, 0, 0, 0, 0, 0, 15, 252, 0, 0, 0, 0, 0, 0, 0};
    return is("types of nothing", jidwaleb_types(NULL, 0, NULL, 0, NULL, 0, NULL, 0, NULL, 0), JIDWALEB_CUT_SHEET, 0)
        & is("search of nothing", jidwaleb_search(NULL, 0, NULL, 0, NULL, 0, NULL, 0, NULL, 0, NULL, 0), JIDWALEB_CUT_SHEET, 0)
        & is("rotations of nothing", jidwaleb_rotations(NULL, 0, NULL, 0, NULL, 0, NULL, 0, NULL, 0, NULL, 0), JIDWALEB_CUT_SHEET, 0)
        & is("copies of nothing", jidwaleb_copy(2, NULL, 0, NULL, 0, NULL, 0, NULL, 0), JIDWALEB_BLANK, 0)
        & is("types without outputs", jidwaleb_types(least, 1, words, 4096, floats, 2048, NULL, 0, NULL, 0), JIDWALEB_DONE, 0)
        & is("types without workspace", jidwaleb_types(pair, 19, NULL, 0, NULL, 0, of, 256, table, 4 * 256), JIDWALEB_BENCH, 0)
        & is("types without room", jidwaleb_types(pair, 19, words, 4096, floats, 2048, NULL, 0, NULL, 0), JIDWALEB_SHORT_SHEET, 0)
        & is("search without room", jidwaleb_search(pair, 19, words, 4096, floats, 2048, NULL, 0, NULL, 0, NULL, 0), JIDWALEB_SHORT_SHEET, 0)
        & is("search without marks", jidwaleb_search(pair, 19, words, 4096, floats, 2048, matrices, 1024, rows, 8192, NULL, 0), JIDWALEB_SHORT_SHEET, 0)
        & is("rotations without room", jidwaleb_rotations(pair, 19, words, 4096, floats, 2048, NULL, 0, NULL, 0, NULL, 0), JIDWALEB_SHORT_SHEET, 0)
        & is("no points", jidwaleb_copy(2, NULL, 0, turns, 16, out, 8, images, 16), JIDWALEB_BLANK, 0)
        & is("no matrices", jidwaleb_copy(2, point, 2, NULL, 0, out, 8, images, 16), JIDWALEB_BLANK, 0)
        & is("no room for copies", jidwaleb_copy(2, point, 2, turns, 16, NULL, 0, images, 16), JIDWALEB_SHORT_SHEET, 0)
        & is("no room for the table", jidwaleb_copy(2, point, 2, turns, 16, out, 8, NULL, 0), JIDWALEB_SHORT_SHEET, 4);
}

/* The version's text is the text of its numbers. */
static int version(void) {
    char text[32];
    snprintf(text, sizeof text, "%d.%d.%d", JIDWALEB_VERSION_MAJOR, JIDWALEB_VERSION_MINOR, JIDWALEB_VERSION_PATCH);
    return strcmp(text, JIDWALEB_VERSION_STRING) == 0 && JIDWALEB_VERSION > 0;
}

int main(int count, char **arguments) {
    return count > 1 ? kit(arguments[1]) : !(copies() & empty_buffers() & version());
}
