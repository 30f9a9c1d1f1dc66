/* Formats standard input with the default options and writes the text; status 2 and a message for what can't be. */
#include "wirescript.h"

#include <stdio.h>
#include <stdlib.h>

/* Formats into an output of so many bytes, which *text gets. */
static wirescript_answer format(const uint8_t *source, size_t length, size_t room, uint8_t **text)
{
    const uint8_t *strengths = (const uint8_t *)WIRESCRIPT_STRENGTHS;
    size_t scratch_length = WIRESCRIPT_SCRATCH(length);
    uint8_t *scratch = malloc(scratch_length);
    *text = malloc(room);
    if (scratch == NULL || *text == NULL) {
        fputs("no memory\n", stderr);
        exit(2);
    }
    wirescript_answer answer = wirescript_format(
        source, length, (const uint8_t *)"  ", 2, 1, 100, WIRESCRIPT_ENDING_KEPT, WIRESCRIPT_NEWLINE_ALWAYS, 0,
        strengths, WIRESCRIPT_STRENGTHS_BYTES, *text, room, NULL, 0, scratch, scratch_length);
    free(scratch);
    return answer;
}

int main(void)
{
    /* one byte more than the longest, so that a longer source is refused */
    static uint8_t source[WIRESCRIPT_MAX_SOURCE + 1];
    size_t length = fread(source, 1, sizeof source, stdin);
    uint8_t *text;
    wirescript_answer answer = format(source, length, length + length / 4 + 256, &text);
    if (answer.refusal == WIRESCRIPT_OUTPUT_SHORT) {
        free(text);
        answer = format(source, length, (size_t)answer.place, &text);
    }
    if (answer.refusal != WIRESCRIPT_ACCEPTED) {
        fprintf(stderr, "refused %llu at %llu\n", (unsigned long long)answer.refusal,
                (unsigned long long)answer.place);
        free(text);
        return 2;
    }
    size_t written = fwrite(text, 1, (size_t)answer.length, stdout);
    free(text);
    return written == answer.length && fflush(stdout) == 0 ? 0 : 2;
}
