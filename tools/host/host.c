/* A host program: resolves the address of its first argument against the base and the directory of its second and third. */
#include <stdio.h>
#include <string.h>

#include "berth.h"

int main(int argc, char **argv) {
    if (argc != 4) {
        fprintf(stderr, "usage: host ADDRESS BASE DIRECTORY\n");
        return 2;
    }
    uint8_t out[512];
    berth_answer answer;
    berth_resolve((const uint8_t *)argv[1], strlen(argv[1]), (const uint8_t *)argv[2], strlen(argv[2]),
                  (const uint8_t *)argv[3], strlen(argv[3]), out, sizeof out, &answer);
    if (answer.number != 0) {
        printf("refused %u, layer %u, place %llu\n", answer.number, answer.layer, (unsigned long long)answer.place);
        return 1;
    }
    if (!answer.linked) {
        printf("none\n");
        return 0;
    }
    printf("%.*s\n", (int)answer.length, (const char *)out);
    return 0;
}
