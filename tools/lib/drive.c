/* drive ADAPTOR.so [OPTION]..: steps the adaptor's index through schedules. Standard input has them one after another, each as four
 * bytes of length, the lowest first, and the file; standard output gets a line of JSON for each. The first line says that the
 * adaptor was loaded, or why not. What the index itself prints goes to standard error. Options: each, in-process, no-set, no-tree,
 * no-marks, free, places, skip-local, skip=P, limit=MS, shrink. */
#define _GNU_SOURCE
#include <dlfcn.h>
#include <stdio.h>
#include <stdlib.h>
#include <string.h>
#include <unistd.h>

#include "nuxalder.h"
#include "nuxalder_drive.h"

static FILE *out; /* standard output as it was given */

static void put_text(const char *name, const char *text)
{
    fprintf(out, "\"%s\": \"", name);
    for (; *text; text++) {
        unsigned char c = (unsigned char)*text;
        if (c == '"' || c == '\\') fprintf(out, "\\%c", c);
        else if (c < 32 || c > 126) fprintf(out, "\\u%04x", c);
        else putc(c, out);
    }
    putc('"', out);
}

static int fails(const char *why)
{
    putc('{', out);
    put_text("fault", why);
    fputs("}\n", out);
    return 1;
}

static int option(nuxalder_drive_options *o, int *shrink, const char *word)
{
    if (!strcmp(word, "each")) o->each = 1;
    else if (!strcmp(word, "in-process")) o->in_process = 1;
    else if (!strcmp(word, "no-set")) o->no_set = 1;
    else if (!strcmp(word, "no-tree")) o->no_tree = 1;
    else if (!strcmp(word, "no-marks")) o->no_marks = 1;
    else if (!strcmp(word, "free")) o->free = 1;
    else if (!strcmp(word, "places")) o->places = 1;
    else if (!strcmp(word, "skip-local")) o->skip_local = 1;
    else if (!strncmp(word, "skip=", 5)) o->skip[atoi(word + 5) & (NUXALDER_DRIVE_PLACES - 1)] = 1;
    else if (!strncmp(word, "limit=", 6)) o->limit_ms = atoi(word + 6);
    else if (!strcmp(word, "shrink")) *shrink = 1;
    else return 0;
    return 1;
}

static void put_verdict(const nuxalder_drive_verdict *v)
{
    putc('{', out);
    put_text("kind", nuxalder_drive_kind_words(v->kind));
    fprintf(out, ", \"record\": %d, \"count\": %d, \"refusal\": %d, \"records\": %d, \"turns\": %d, \"judged\": %d, \"first_record\": %d, ", v->record, v->count,
           v->refusal, v->records, v->turns, v->judged, v->first_record);
    put_text("first_kind", nuxalder_drive_kind_words(v->first_kind));
    fprintf(out, ", ");
    put_text("words", v->words);
}

int main(int argc, char **argv)
{
    static uint8_t file[1 << 20];
    static nuxalder_drive_verdict v;
    nuxalder_drive_options o = {0};
    const nuxalder_drive_index *index;
    int shrink = 0;
    uint8_t head[4];

    out = fdopen(dup(STDOUT_FILENO), "w");
    if (!out || dup2(STDERR_FILENO, STDOUT_FILENO) < 0) return 1;
    setvbuf(stdout, NULL, _IONBF, 0);
    if (argc < 2) return fails("no adaptor is named");
    for (int i = 2; i < argc; i++)
        if (!option(&o, &shrink, argv[i])) return fails("an unknown option");
    void *adaptor = dlopen(argv[1], RTLD_NOW | RTLD_LOCAL);
    if (!adaptor) return fails(dlerror());
    index = dlsym(adaptor, "nuxalder_drive_adaptor");
    if (!index) return fails("the adaptor does not define nuxalder_drive_adaptor");
    fprintf(out, "{\"version\": %d, \"walk\": %d, \"set\": %d, \"marks\": %d}\n", index->version, index->walk != NULL, index->set != NULL, index->marks != NULL);
    fflush(out);
    while (fread(head, 1, 4, stdin) == 4) {
        size_t length = head[0] | (size_t)head[1] << 8 | (size_t)head[2] << 16;
        if (length > sizeof file || fread(file, 1, length, stdin) != length) return 1;
        int agrees = nuxalder_drive(index, file, length, &o, &v);
        put_verdict(&v);
        if (!agrees && shrink) {
            size_t left = nuxalder_drive_shrink(index, file, length, &o, &v);
            fprintf(out, ", \"shrunk\": ");
            put_verdict(&v);
            fprintf(out, ", \"schedule\": \"");
            for (size_t i = 0; i < left; i++) fprintf(out, "%02x", file[i]);
            fprintf(out, "\"}");
            shrink = 0;
        }
        fputs("}\n", out);
        fflush(out);
    }
    return 0;
}
