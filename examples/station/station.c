/* A flashing station's check of a release set: may it be flashed?
 *
 * Says the set's revision and its numbers of nodes and rows, or why it is refused. Status 0: flash. Status 1: stop, the set is refused
 * or its revision is not the approved one. Status 2: the file can't be read, or the check was called wrongly. */
#include <stdbool.h>
#include <stdio.h>
#include <stdlib.h>
#include <string.h>

#include "cxpi.h"
#include "cxpi_text.h"

enum { FLASH = 0, STOP = 1, UNKNOWN = 2 };

static unsigned two_bytes(const uint8_t *bytes) {
    return (unsigned)bytes[0] << 8 | bytes[1];
}

/* A revision, 1 to 65,535, in decimal digits and nothing else; 0 where the text is none. */
static unsigned parse_revision(const char *text) {
    size_t digits = strspn(text, "0123456789");
    unsigned long revision = digits <= 5 && text[digits] == '\0' && text[0] != '0' ? strtoul(text, NULL, 10) : 0;
    return revision <= 65535 ? (unsigned)revision : 0;
}

/* Reads a file into a buffer that a set does not fill, so that a longer file is seen to be one; says whether it could be read. */
static bool read_file(const char *path, uint8_t *bytes, size_t room, size_t *length) {
    FILE *file = fopen(path, "rb");
    if (file == NULL) {
        return false;
    }
    *length = fread(bytes, 1, room, file);
    bool whole = ferror(file) == 0;
    fclose(file);
    return whole;
}

/* Judges a set by the approved revision, 0 where none is given. */
static int judge(const uint8_t *set, size_t length, unsigned approved) {
    uint8_t plan[CXPI_PLAN_LENGTH];
    uint32_t refusal = cxpi_read(set, length, plan, sizeof plan);
    if (refusal != CXPI_DONE) {
        printf("stop: refused %u, %s\n", (unsigned)refusal, cxpi_refusal_text(refusal));
        return STOP;
    }
    unsigned revision = two_bytes(plan + CXPI_PLAN_REVISION_AT);
    printf("revision %u, nodes %u, rows %u\n", revision, plan[CXPI_PLAN_NODE_COUNT_AT], two_bytes(plan + CXPI_PLAN_ROW_COUNT_AT));
    if (approved != 0 && revision != approved) {
        printf("stop: the approved revision is %u\n", approved);
        return STOP;
    }
    printf("flash\n");
    return FLASH;
}

int main(int count, char **arguments) {
    uint8_t set[CXPI_SET_LENGTH_TWO + 1];
    size_t length;
    unsigned approved = count == 3 ? parse_revision(arguments[2]) : 0;
    if (count < 2 || count > 3 || (count == 3 && approved == 0)) {
        fprintf(stderr, "usage: station FILE [APPROVED REVISION, 1 to 65535]\n");
        return UNKNOWN;
    }
    if (cxpi_version() != CXPI_VERSION) {
        fprintf(stderr, "the archive and the header differ in their version\n");
        return UNKNOWN;
    }
    if (!read_file(arguments[1], set, sizeof set, &length)) {
        fprintf(stderr, "%s can't be read\n", arguments[1]);
        return UNKNOWN;
    }
    return judge(set, length, approved);
}
