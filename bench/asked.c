/* Asks an HTTP service again and again: asked PORT PATH CLIENTS REQUESTS sends the body on standard input in REQUESTS requests,
   each over a connection of its own, from CLIENTS threads, and prints the requests per second and the bytes of an answer. */
#include <arpa/inet.h>
#include <pthread.h>
#include <stdio.h>
#include <stdlib.h>
#include <string.h>
#include <sys/socket.h>
#include <time.h>
#include <unistd.h>

enum { BODY = 1 << 20, HEAD = 512, MOST = 64 };

static char request[HEAD + BODY];
static size_t request_length, answer_length;
static struct sockaddr_in address;
static long each;
static int failed;

/* The bytes of the answer, or 0. */
static size_t ask(char *room, size_t size)
{
    size_t sent = 0, got = 0;
    ssize_t count = 0;
    int end = socket(AF_INET, SOCK_STREAM, 0);
    if (end < 0)
        return 0;
    if (connect(end, (struct sockaddr *)&address, sizeof address) == 0) {
        while (sent < request_length && (count = write(end, request + sent, request_length - sent)) > 0)
            sent += count;
        while (sent == request_length && (count = read(end, room, size)) > 0)
            got += count;
    }
    close(end);
    return count == 0 ? got : 0;
}

static void *client(void *unused)
{
    static _Thread_local char room[1 << 16];
    for (long number = 0; number < each; number++) {
        size_t length = ask(room, sizeof room);
        if (length == 0)
            failed = 1;
        else
            answer_length = length;
    }
    return unused;
}

int main(int count, char **words)
{
    int clients = count == 5 ? atoi(words[3]) : 0;
    if (clients < 1 || clients > MOST || atol(words[4]) < clients) {
        fputs("asked PORT PATH CLIENTS REQUESTS\n", stderr);
        return 2;
    }
    static char body[BODY];
    size_t length = fread(body, 1, BODY, stdin);
    int head = snprintf(request, HEAD, "POST %s HTTP/1.1\r\nhost: h\r\nconnection: close\r\ncontent-type: application/grpc-web+proto\r\ncontent-length: %zu\r\n\r\n", words[2], length);
    if (head < 0 || head >= HEAD)
        return 2;
    memcpy(request + head, body, length);
    request_length = head + length;
    address.sin_family = AF_INET;
    address.sin_port = htons(atoi(words[1]));
    address.sin_addr.s_addr = htonl(INADDR_LOOPBACK);
    each = atol(words[4]) / clients;
    pthread_t threads[MOST];
    struct timespec start, end;
    clock_gettime(CLOCK_MONOTONIC, &start);
    for (int number = 0; number < clients; number++)
        if (pthread_create(&threads[number], NULL, client, NULL) != 0)
            return 2;
    for (int number = 0; number < clients; number++)
        pthread_join(threads[number], NULL);
    clock_gettime(CLOCK_MONOTONIC, &end);
    double seconds = (end.tv_sec - start.tv_sec) + (end.tv_nsec - start.tv_nsec) / 1e9;
    printf("%.0f %zu\n", each * clients / seconds, answer_length);
    return failed;
}
