/* Splits a FileDescriptorSet into its files: split_set SET FOLDER writes the bytes of each FileDescriptorProto below
   the folder, to a file of the name that it has, and prints the names in the order of the set. Fails where the set is
   not made of such messages, where a name leads out of the folder, and where two files have the same name. */
#include <errno.h>
#include <limits.h>
#include <stdio.h>
#include <stdlib.h>
#include <string.h>
#include <sys/stat.h>

/* The tag of field 1 with a length: `file` of the set, `name` of a file. */
enum { FIRST_FIELD = 0x0a };

struct bytes {
    const unsigned char *start;
    size_t length;
};

static void fail(const char *what)
{
    fprintf(stderr, "split_set: %s\n", what);
    exit(1);
}

static unsigned char *read_all(const char *path, size_t *length)
{
    FILE *file = fopen(path, "rb");
    struct stat about;
    if (!file || fstat(fileno(file), &about) != 0 || !S_ISREG(about.st_mode))
        fail("the set is no file that can be read");
    *length = (size_t)about.st_size;
    unsigned char *all = malloc(*length + 1);
    if (!all || fread(all, 1, *length, file) != *length)
        fail("the set can't be read");
    fclose(file);
    return all;
}

static size_t take_varint(struct bytes *rest)
{
    size_t value = 0;
    for (unsigned shift = 0; shift < 63; shift += 7) {
        if (rest->length == 0)
            fail("a length is cut off");
        unsigned char byte = *rest->start++;
        rest->length--;
        value |= (size_t)(byte & 0x7f) << shift;
        if (byte < 0x80)
            return value;
    }
    fail("a length is too long");
    return 0;
}

/* The value of the first field of a message, which is then behind it. */
static struct bytes take_first_field(struct bytes *rest)
{
    if (rest->length == 0 || *rest->start != FIRST_FIELD)
        fail("a message does not begin with its first field");
    rest->start++;
    rest->length--;
    struct bytes value = {NULL, take_varint(rest)};
    if (value.length > rest->length)
        fail("a field is cut off");
    value.start = rest->start;
    rest->start += value.length;
    rest->length -= value.length;
    return value;
}

static int is_within(const char *name)
{
    const char *part = name;
    for (;;) {
        size_t length = strcspn(part, "/\n");
        if (part[length] == '\n' || length == 0 || strncmp(part, "..", length) == 0)
            return 0;
        if (part[length] == 0)
            return 1;
        part += length + 1;
    }
}

static void make_folders(char *path)
{
    for (char *slash = strchr(path + 1, '/'); slash; slash = strchr(slash + 1, '/')) {
        *slash = 0;
        if (mkdir(path, 0777) != 0 && errno != EEXIST)
            fail("a folder can't be made");
        *slash = '/';
    }
}

static void write_file(const char *folder, struct bytes content)
{
    struct bytes inside = content;
    struct bytes name_bytes = take_first_field(&inside);
    char name[PATH_MAX], path[PATH_MAX];
    if (name_bytes.length >= sizeof name)
        fail("a name is too long");
    memcpy(name, name_bytes.start, name_bytes.length);
    name[name_bytes.length] = 0;
    if (strlen(name) != name_bytes.length || !is_within(name))
        fail("a name is none of a file within the folder");
    if (snprintf(path, sizeof path, "%s/%s", folder, name) >= (int)sizeof path)
        fail("a name is too long");
    make_folders(path);
    FILE *file = fopen(path, "wbx");
    if (!file)
        fail(errno == EEXIST ? "a name occurs twice" : "a file can't be made");
    if (fwrite(content.start, 1, content.length, file) != content.length || fclose(file) != 0)
        fail("a file can't be written");
    puts(name);
}

int main(int count, char **words)
{
    if (count != 3)
        fail("split_set SET FOLDER");
    size_t length;
    unsigned char *all = read_all(words[1], &length);
    struct bytes rest = {all, length};
    while (rest.length > 0)
        write_file(words[2], take_first_field(&rest));
    free(all);
    return 0;
}
