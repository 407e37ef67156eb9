/* Stands in for the program, to show that what goes wrong is found: it answers each line by one answer, and does what its
   first word says where it is refused something. `sound` does as the program does. */
#include <stdlib.h>
#include <string.h>
#include <unistd.h>

static const char ANSWER[] = "ok\t-987,654.321\n";
static const char *how;

static int is(const char *word) { return !strcmp(how, word); }

static void end(int status, const char *line) {
    if (write(2, line, strlen(line)) < 0) exit(1);
    exit(status);
}

/* Writes an answer whole. With `twice` the answer is begun anew after a failed write. */
static void put(const char *answer) {
    size_t done = 0, size = strlen(answer);
    int is_tried = 0;
    while (done < size) {
        ssize_t taken = write(1, answer + done, size - done);
        if (taken > 0) {
            done += taken;
        } else if (is("twice") && !is_tried) {
            is_tried = 1;
            done = 0;
        } else {
            end(5, "fault: write\n");
        }
    }
    if (is_tried) end(5, "fault: write\n");
}

/* Answers a line, for which it asks for memory once. */
static void answer(void) {
    char *text = malloc(sizeof ANSWER);
    if (!text) {
        if (is("half")) put("ok\t-987");
        if (is("another_word")) {
            put("err\tlimit\n");
            return;
        }
        end(is("another_fault") ? 5 : 6, is("another_fault") ? "fault: read\n" : "fault: memory\n");
    }
    strcpy(text, ANSWER);
    put(text);
    free(text);
}

int main(int count, char **words) {
    char bytes[64];
    ssize_t given;
    how = count > 1 ? words[1] : "sound";
    while ((given = read(0, bytes, sizeof bytes)) > 0)
        for (ssize_t place = 0; place < given; place++)
            if (bytes[place] == '\n') answer();
    if (given < 0 && !is("no_fault")) end(5, "fault: read\n");
    return 0;
}
