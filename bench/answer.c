// Answers each frame on its input with one and the same bytes, and does nothing else: what a start and a round trip take at
// least. The bytes are those of the file that is named, or else the answer to the first `initialize`.
#include <fcntl.h>
#include <stdlib.h>
#include <string.h>
#include <unistd.h>

static const char usual[] =
    "Content-Length: 258\r\n\r\n"
    "{\"body\":{\"supportsConditionalBreakpoints\":true,\"supportsConfigurationDoneRequest\":true,"
    "\"supportsHitConditionalBreakpoints\":true,\"supportsLogPoints\":true,\"supportsStepBack\":true},"
    "\"command\":\"initialize\",\"request_seq\":1,\"seq\":1,\"success\":true,\"type\":\"response\"}";

static char answer[1 << 20];
static char bytes[(1 << 20) + 1];

// How many bytes of the answer there are.
static size_t take_answer(const char *name) {
    if (!name) return memcpy(answer, usual, sizeof usual - 1), sizeof usual - 1;
    int file = open(name, O_RDONLY);
    ssize_t count = read(file, answer, sizeof answer);
    close(file);
    return count < 0 ? 0 : count;
}

// How many bytes the first of these frames has, or 0 where it isn't whole yet.
static size_t first_frame(const char *from, size_t count) {
    const char *end = strstr(from, "\r\n\r\n");
    const char *length = strstr(from, "Content-Length: ");
    if (!end || !length) return 0;
    size_t size = end + 4 - from + strtoul(length + strlen("Content-Length: "), NULL, 10);
    return size <= count ? size : 0;
}

int main(int count_of_words, char **words) {
    size_t answered = take_answer(count_of_words > 1 ? words[1] : NULL);
    size_t count = 0;
    ssize_t came;
    while (count < sizeof bytes - 1 && (came = read(0, bytes + count, sizeof bytes - 1 - count)) > 0) {
        bytes[count += came] = 0;
        size_t at = 0;
        for (size_t size; (size = first_frame(bytes + at, count - at)); at += size) {
            if (write(1, answer, answered) < 0) return 1;
        }
        memmove(bytes, bytes + at, count -= at);
    }
    return 0;
}
