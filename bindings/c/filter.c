/* Runs a command over standard input and the files that its words name, in constant memory, as the program does.
 * bindings/c/tests/library.sh compiles and runs it. usage: filter TOOL [WORD ..] */
#include "ptext.h"
#include <fcntl.h>
#include <signal.h>
#include <stdio.h>
#include <stdlib.h>
#include <string.h>

int main(int count, char **words) {
    (void)count;
    size_t size = ptext_words(words + 1, NULL, 0), room = size + 1;
    uint8_t *joined = malloc(room), *names = malloc(room), *output = malloc(room), *opened = calloc(room, 1);
    int *descriptors = malloc((room + PTEXT_FILE) * sizeof *descriptors);
    struct ptext_answer found;
    if (!joined || !names || !output || !opened || !descriptors)
        return 1;
    ptext_words(words + 1, joined, room);
    if (ptext_names(joined, size, names, room, output, room, &found))
        return 1;
    /* (If a stream is closed, its number may soon be that of a file.) */
    for (int stream = 0; stream < PTEXT_FILE; stream++)
        descriptors[stream] = fcntl(stream, F_GETFD) < 0 ? -1 : stream;
    struct ptext_options options = {.size = sizeof options, .opened = opened};
    int are_open = 1;
    for (uint8_t *name = names; name < names + found.out.written; name += strlen((char *)name) + 1) {
        int file = open((char *)name, O_RDONLY);
        are_open &= opened[options.files] = file >= 0;
        descriptors[PTEXT_FILE + options.files++] = file;
    }
    if (found.messages.written && are_open) {
        descriptors[PTEXT_OUTPUT] = open((char *)output, O_WRONLY | O_CREAT | O_TRUNC, 0666);
        if (descriptors[PTEXT_OUTPUT] < 0) {
            fprintf(stderr, "%s: %s: cannot be opened\n", words[1], (char *)output);
            return 1;
        }
    }
    /* (A pipe that nobody reads is then a failed write.) */
    signal(SIGPIPE, SIG_IGN);
    int status = ptext_stream(joined, size, ptext_read_descriptor, ptext_write_descriptor, descriptors, &options);
    return status == PTEXT_MEMORY ? 1 : status;
}
