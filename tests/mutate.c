/* Changes a text at random: mutate SEED TEXT [OTHER] writes the bytes of the file TEXT with one to three changes: bits
   flipped, a byte set, the end cut off, a piece left out or doubled, two tokens exchanged, or a token of the file OTHER in the
   place of one. The same seed makes the same changes. */
#include <ctype.h>
#include <stdint.h>
#include <stdio.h>
#include <stdlib.h>
#include <string.h>

/* No text has more bytes than this after its changes. */
enum { MOST = 1 << 22, CHANGES = 3 };

static uint64_t state;

/* A number below a bound, or 0 where the bound is 0 (xorshift64*). */
static size_t below(size_t bound)
{
    state ^= state >> 12;
    state ^= state << 25;
    state ^= state >> 27;
    return bound == 0 ? 0 : (size_t)((state * UINT64_C(2685821657736338717)) >> 20) % bound;
}

struct text {
    unsigned char bytes[MOST];
    size_t length;
};

static struct text text, other;

struct piece {
    size_t start, length;
};

static void fill(struct text *into, const char *path)
{
    FILE *file = fopen(path, "rb");
    if (!file) {
        perror(path);
        exit(2);
    }
    into->length = fread(into->bytes, 1, MOST / 4, file);
    fclose(file);
}

static int is_of_word(unsigned char byte)
{
    return isalnum(byte) || byte == '_' || byte == '.';
}

/* The token at a random place: a run of letters, digits, `_` and `.`, or else one byte. */
static struct piece token_of(const struct text *from)
{
    size_t start = below(from->length), end = start;
    while (start > 0 && is_of_word(from->bytes[start]) && is_of_word(from->bytes[start - 1]))
        start--;
    while (end < from->length && is_of_word(from->bytes[end]))
        end++;
    if (end <= start)
        end = start + (start < from->length);
    return (struct piece){start, end - start};
}

/* Puts bytes in the place of a piece. */
static void replace(struct piece old, const unsigned char *bytes, size_t length)
{
    static unsigned char copy[MOST];
    if (text.length - old.length + length > MOST)
        return;
    memcpy(copy, bytes, length);
    memmove(text.bytes + old.start + length, text.bytes + old.start + old.length, text.length - old.start - old.length);
    memcpy(text.bytes + old.start, copy, length);
    text.length += length - old.length;
}

static void exchange(void)
{
    static unsigned char first[MOST];
    struct piece a = token_of(&text), b = token_of(&text);
    if (a.start > b.start) {
        struct piece c = a;
        a = b;
        b = c;
    }
    if (a.start + a.length > b.start)
        return;
    memcpy(first, text.bytes + a.start, a.length);
    unsigned char *second = malloc(b.length + 1);
    if (!second)
        exit(2);
    memcpy(second, text.bytes + b.start, b.length);
    replace(b, first, a.length);
    replace(a, second, b.length);
    free(second);
}

static void change(void)
{
    size_t start = below(text.length);
    struct piece piece = {start, below(text.length - start < 40 ? text.length - start + 1 : 40)};
    switch (below(8)) {
    case 0:
        if (text.length)
            text.bytes[start] ^= (unsigned char)(1u << below(8));
        break;
    case 1:
        if (text.length)
            text.bytes[start] = (unsigned char)below(256);
        break;
    case 2:
        text.length = start;
        break;
    case 3:
        replace(piece, text.bytes, 0);
        break;
    case 4:
        replace((struct piece){start, 0}, text.bytes + piece.start, piece.length);
        break;
    case 5:
        exchange();
        break;
    default:
        if (other.length) {
            struct piece token = token_of(&other);
            replace(token_of(&text), other.bytes + token.start, token.length);
        } else {
            exchange();
        }
    }
}

int main(int count, char **words)
{
    if (count < 3) {
        fputs("usage: mutate SEED TEXT [OTHER]\n", stderr);
        return 2;
    }
    state = strtoull(words[1], NULL, 10) * UINT64_C(0x9e3779b97f4a7c15) + 1;
    fill(&text, words[2]);
    if (count > 3)
        fill(&other, words[3]);
    for (size_t changes = 1 + below(CHANGES); changes > 0; changes--)
        change();
    return fwrite(text.bytes, 1, text.length, stdout) == text.length ? 0 : 2;
}
