/* Runs a target over each file of a folder, as libFuzzer would, and prints what the library answered as a number, with
 * the file's name: corpus-calls FOLDER, corpus-receive FOLDER. */
#define _GNU_SOURCE
#include "answers.h"
#include <dirent.h>
#include <stdio.h>
#include <stdlib.h>

int LLVMFuzzerTestOneInput(const uint8_t *data, size_t size);

int main(int argc, char **argv)
{
    static uint8_t input[1 << 20];
    struct dirent **files;
    char path[4096];
    int count = argc == 2 ? scandir(argv[1], &files, NULL, alphasort) : -1, run = 0;
    for (int i = 0; i < count; i++) {
        snprintf(path, sizeof path, "%s/%s", argv[1], files[i]->d_name);
        FILE *file = files[i]->d_name[0] == '.' ? NULL : fopen(path, "rb");
        if (file) {
            size_t length = fread(input, 1, sizeof input, file);
            answers = 14695981039346656037u;
            LLVMFuzzerTestOneInput(input, length);
            printf("%016llx %s\n", (unsigned long long)answers, files[i]->d_name);
            fclose(file);
            run++;
        }
        free(files[i]);
    }
    if (count < 0 || run == 0) {
        fprintf(stderr, "usage: corpus FOLDER, with files in it\n");
        return 2;
    }
    free(files);
    return 0;
}
