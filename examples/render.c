/* Writes the HTML of standard input: cc render.c $(pkg-config --cflags --libs cmk) */
#include <cmk.h>
#include <stdio.h>

/* Returns all of standard input in a block of malloc, or NULL if it can't be read or is too long for the memory. */
static char *read_all(size_t *length) {
    size_t room = 1 << 16;
    char *text = (char *)malloc(room);
    *length = 0;
    while (text != NULL && (*length += fread(text + *length, 1, room - *length, stdin)) == room) {
        char *longer = (char *)realloc(text, room *= 2);
        if (longer == NULL) {
            free(text);
        }
        text = longer;
    }
    if (text != NULL && ferror(stdin)) {
        free(text);
        text = NULL;
    }
    return text;
}

int main(void) {
    char line[CMK_LINE_ROOM];
    size_t length;
    char *text = read_all(&length);
    cmk_options options = CMK_OPTIONS;
    cmk_output output = CMK_OUTPUT;
    cmk_filled filled;
    uint32_t answer;
    if (text == NULL) {
        perror("standard input");
        return 1;
    }
    options.strike = true;
    answer = cmk_html(text, length, &options, &output);
    free(text);
    if (answer == CMK_DONE) {
        fwrite(output.bytes, 1, output.length, stdout);
    } else if (cmk_fault_text(answer, output.place, line, sizeof line, &filled) == CMK_DONE) {
        fputs(line, stderr);
    }
    cmk_free(&output);
    if (fflush(stdout) != 0 || ferror(stdout)) {
        perror("standard output");
        return 1;
    }
    return answer == CMK_DONE ? 0 : 1;
}
