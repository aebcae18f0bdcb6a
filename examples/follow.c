/* Follows an EON text on standard input: prints the verdict and the label sets, and replays the run of a reached question, with who stood by at each step.
 * After `./library` it is built by: cc -o follow examples/follow.c target/staticlib/libeon.a */
#include "../include/eon.h"
#include <stdio.h>

static uint8_t text[16385], work[EON_WORK];
static uint32_t run[EON_RUN], stood[EON_RUN], out[EON_OUT];

/* Prints the labels of an atomic state. */
static void print_state(size_t bytes, uint32_t state) {
    uint64_t relation;
    for (size_t i = 0; (relation = eon_relation(text, bytes, i)) != 0; i++)
        if ((relation & 65535) < 24 && state >> (relation & 65535) & 1)
            printf(" %.*s", (int)(relation >> 16 & 65535), (const char *)text + (relation >> 32));
    printf(state == 0 ? " no label\n" : "\n");
}

/* Prints what is said, and the objects o1 * 65,536 + o2 * 256 + o3, of which 255 is none. */
static void print_objects(const char *said, uint32_t objects) {
    printf("%s", said);
    for (int shift = 16; shift >= 0; shift -= 8)
        if ((objects >> shift & 255) != 255) printf(" %u", objects >> shift & 255);
    printf("\n");
}

int main(void) {
    size_t bytes = fread(text, 1, sizeof text, stdin);
    uint64_t answer = eon_analyze(text, bytes, work, sizeof work, run, EON_RUN, out);
    uint32_t kind = answer >> 32, value = (uint32_t)answer;
    if (kind == 2) return printf("refused: number %u, line %u\n", value >> 16, value & 65535), 2;
    printf("the question is %s, and an object can have:\n", kind == 1 ? "reached" : "unreached");
    for (uint32_t i = 1; i <= out[0]; i++) print_state(bytes, out[i]);
    if (kind == 0) return 0;
    if (eon_replay(text, bytes, run, value, work, sizeof work, stood, EON_RUN) >> 32 != 3) return 1;
    for (uint32_t i = 0; i < value; i++) {
        int meets = run[i] >> 31;
        if (meets) printf("stage %u is met", run[i] >> 24 & 127);
        else printf("line %u is taken by object %u", run[i] >> 8, run[i] & 255);
        print_objects(meets ? " by" : ", standing by:", meets ? run[i] : stood[i]);
    }
    return 0;
}
