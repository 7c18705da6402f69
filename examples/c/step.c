/* A case from its first step to its commit, in C: the history is a file, 16 bytes an entry.
 *
 *   cc step.c -lflow -o step
 *   ./step WORKFLOW HISTORY BY LINE..      ./step shop.flow case.history 1 take 0
 *
 * The answer goes to standard output, an object of JSON a line, and the status of the process is that of the call (see flow.h).
 */
#include "flow.h"

#include <stdio.h>
#include <stdlib.h>
#include <string.h>

enum { MOST = 16 * FLOW_MOST_STEPS };

/* All bytes of a file, at most so many; none where there is no such file. */
static uint8_t *bytes_of(const char *path, size_t most, size_t *length) {
    uint8_t *bytes = malloc(most + 1);
    FILE *file = fopen(path, "rb");
    *length = 0;
    if (bytes && file) {
        *length = fread(bytes, 1, most + 1, file);
    }
    if (file) {
        fclose(file);
    }
    return bytes;
}

/* The record in the object of a step, if there is one. */
static int entry_in(const char *object, uint8_t record[FLOW_RECORD]) {
    const char *head = "\"entries\":[\"", *digits = strstr(object, head);
    if (!digits) {
        return 0;
    }
    digits += strlen(head);
    for (int place = 0; place < FLOW_RECORD; place++) {
        unsigned byte;
        if (sscanf(digits + 2 * place, "%2x", &byte) != 1) {
            return 0;
        }
        record[place] = (uint8_t)byte;
    }
    return 1;
}

int main(int count, char **words) {
    if (count < 5) {
        fprintf(stderr, "usage: step WORKFLOW HISTORY BY LINE..\n");
        return FLOW_CALL;
    }
    char line[256] = "";
    for (int word = 4; word < count; word++) {
        snprintf(line + strlen(line), sizeof line - strlen(line), "%s ", words[word]);
    }
    size_t text_length, history_length, length = 0;
    uint8_t *text = bytes_of(words[1], 1 << 20, &text_length);
    uint8_t *history = bytes_of(words[2], MOST, &history_length);
    char *object = NULL;
    uint32_t status = FLOW_NO_ROOM;
    if (!text || !history) {
        return FLOW_MEMORY;
    }
    /* at first with a small room; where it is too small, once more with as much as is needed */
    for (size_t room = 4096; status == FLOW_NO_ROOM; room = length) {
        free(object);
        object = malloc(room + 1);
        if (!object) {
            return FLOW_MEMORY;
        }
        status = flow_step(text, text_length, (const uint8_t *)"", 0, history, history_length, (uint32_t)strtoul(words[3], NULL, 10),
                           (const uint8_t *)line, strlen(line), (uint8_t *)object, room, &length);
    }
    object[length] = 0;
    uint8_t record[FLOW_RECORD];
    if (entry_in(object, record)) {
        /* the entry is stored before the step counts */
        FILE *file = fopen(words[2], "ab");
        if (!file || fwrite(record, 1, FLOW_RECORD, file) != FLOW_RECORD || fclose(file)) {
            fprintf(stderr, "step: %s is not written\n", words[2]);
            return 8;
        }
    }
    puts(object);
    free(text);
    free(history);
    free(object);
    return (int)status;
}
