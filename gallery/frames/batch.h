/* What the frames in C and C++ share: main answers a line for each line of base64. A frame has `taken`, which
   gets a text with a 0 behind it. */
#include <stdio.h>
#include <stdlib.h>
#include <string.h>

static int taken(const char *text, size_t length);

static int digit(int mark) {
    static const char digits[] = "ABCDEFGHIJKLMNOPQRSTUVWXYZabcdefghijklmnopqrstuvwxyz0123456789+/";
    const char *found = mark ? strchr(digits, mark) : NULL;
    return found ? (int)(found - digits) : -1;
}

static size_t decode(const char *line, char *text) {
    size_t length = 0;
    unsigned bits = 0;
    int count = 0;
    for (; digit(*line) >= 0; line++) {
        bits = (bits << 6 | (unsigned)digit(*line)) & 0xFFFFu;
        count += 6;
        if (count >= 8) {
            count -= 8;
            text[length++] = (char)(bits >> count & 255);
        }
    }
    text[length] = 0;
    return length;
}

int main(void) {
    char *line = NULL;
    size_t room = 0;
    while (getline(&line, &room, stdin) > 0) {
        char *text = (char *)malloc(strlen(line) + 1);
        size_t length = decode(line, text);
        puts(taken(text, length) ? "taken" : "refused");
        fflush(stdout);
        free(text);
    }
    return 0;
}
