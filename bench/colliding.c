/* Prints names of one length that have one hash: colliding COUNT. A hash takes each byte as h * 16777619 + byte, modulo 2^32
   (crates/proto_names/src/hashing.rt), so two blocks of equal value can stand for one another at every place of a name; of
   two such blocks, n in a row are 2^n names. */
#include <stdint.h>
#include <stdio.h>
#include <stdlib.h>
#include <string.h>

enum { LETTERS = 7, BLOCKS = 1 << 18, MOST = 36 };

struct block {
    uint32_t value;
    char text[LETTERS + 1];
};

static struct block blocks[BLOCKS];

static int by_value(const void *left, const void *right)
{
    uint32_t a = ((const struct block *)left)->value, b = ((const struct block *)right)->value;
    return (a > b) - (a < b);
}

int main(int count, char **words)
{
    unsigned long wanted = count > 1 ? strtoul(words[1], NULL, 10) : 0;
    uint64_t state = 88172645463325252u;
    for (int i = 0; i < BLOCKS; i++) {
        for (int k = 0; k < LETTERS; k++) {
            state ^= state << 13;
            state ^= state >> 7;
            state ^= state << 17;
            blocks[i].text[k] = (char)('a' + (state >> 33) % 26);
            blocks[i].value = blocks[i].value * 16777619u + (unsigned char)blocks[i].text[k];
        }
    }
    qsort(blocks, BLOCKS, sizeof *blocks, by_value);
    int at = 1;
    while (at < BLOCKS && (blocks[at].value != blocks[at - 1].value || !strcmp(blocks[at].text, blocks[at - 1].text)))
        at++;
    if (at == BLOCKS || wanted >= 1ul << MOST)
        return 1;
    int places = 1;
    while (1ul << places < wanted)
        places++;
    for (unsigned long name = 0; name < wanted; name++) {
        for (int place = 0; place < places; place++)
            fputs(blocks[at - (name >> place & 1)].text, stdout);
        putchar('\n');
    }
    return 0;
}
