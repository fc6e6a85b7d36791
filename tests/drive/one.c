/* A program of one's own: drives schedule files through the adaptor that it is linked with. one [--in-process] FILE.. */
#include <nuxalder_drive.h>
#include <stdio.h>
#include <string.h>

int main(int argc, char **argv)
{
    static uint8_t schedule[1 << 15];
    nuxalder_drive_options options = {0};
    nuxalder_drive_verdict verdict;
    int failed = 0;

    for (int i = 1; i < argc; i++) {
        if (strcmp(argv[i], "--in-process") == 0) {
            options.in_process = 1;
            continue;
        }
        FILE *file = fopen(argv[i], "rb");
        if (!file) return perror(argv[i]), 2;
        size_t length = fread(schedule, 1, sizeof schedule, file);
        fclose(file);
        failed += !nuxalder_drive(&nuxalder_drive_adaptor, schedule, length, &options, &verdict);
        printf("%s: %s%s%s\n", argv[i], nuxalder_drive_kind_words(verdict.kind), verdict.words[0] ? ": " : "", verdict.words);
    }
    return failed ? 1 : 0;
}
