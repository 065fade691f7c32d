/* Reads the gRPC-Web frames of a response from standard input: writes the message of each frame with flag 0 to the file
 * FOLDER/NUMBER, numbered from 1, and what the frame of trailers holds to standard output. Ends with 1 where the input is no
 * row of frames that ends with one frame of trailers. */
#include <stdio.h>
#include <stdlib.h>

static int copy(FILE *out, unsigned long size) {
    for (; size > 0; size--) {
        int byte = getchar();
        if (byte == EOF || fputc(byte, out) == EOF) {
            return 0;
        }
    }
    return 1;
}

int main(int count, char **words) {
    char path[4096];
    unsigned long number = 1;
    if (count != 2) {
        return 2;
    }
    for (;; number++) {
        unsigned char head[5];
        if (fread(head, 1, 5, stdin) != 5) {
            return 1;
        }
        unsigned long size = (unsigned long)head[1] << 24 | (unsigned long)head[2] << 16 | (unsigned long)head[3] << 8 | head[4];
        if (head[0] == 0x80) {
            return copy(stdout, size) && getchar() == EOF ? 0 : 1;
        }
        if (head[0] != 0 || snprintf(path, sizeof path, "%s/%lu", words[1], number) >= (int)sizeof path) {
            return 1;
        }
        FILE *out = fopen(path, "wb");
        if (out == NULL || !copy(out, size) || fclose(out) != 0) {
            return 1;
        }
    }
}
