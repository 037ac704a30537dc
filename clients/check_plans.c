/* check_plans FILE..: whether each file is a plan, or the number and the place of its first fault. */
#include <inttypes.h>
#include <stdio.h>
#include <stdlib.h>

#include "suhilbon.h"

/* One byte more than a plan may have, so that a text that is too long is still seen to be so. */
enum { MOST = 65537 };

static int check(const char *path, uint8_t *text) {
    FILE *file = fopen(path, "rb");
    if (!file) {
        fprintf(stderr, "%s: cannot be read\n", path);
        return 1;
    }
    size_t len = fread(text, 1, MOST, file);
    fclose(file);
    uint64_t answer = suhilbon_check(text, len);
    if (answer == 0) {
        printf("%s: accepted\n", path);
        return 0;
    }
    printf("%s: refused %u at %" PRIu64 "\n", path, suhilbon_number(answer), suhilbon_place(answer));
    return 1;
}

int main(int argc, char **argv) {
    uint8_t *text = malloc(MOST);
    if (!text)
        return 2;
    int refused = 0;
    for (int i = 1; i < argc; i++)
        refused |= check(argv[i], text);
    free(text);
    return refused;
}
