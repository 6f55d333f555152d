/* Sends requests to 127.0.0.1 over connections, each on a thread of its own, and prints one line: how many were
   answered, in how many seconds, and the microseconds that half of them, that 99 of 100 and that all didn't pass.

   usage: serve_load [--again] [--postgres COUNT] PORT SECONDS FILE..

   A FILE is what one connection sends: for each request a line `BYTES PREFIX`, and then so many bytes. A request is
   sent once the one before is answered. An answer is a line, and has to begin with the prefix. The first request of a
   file comes before the clock starts. A connection ends with its file, or once the seconds are over. With --again it
   ends with the seconds alone: it sends its file again and again, and the half and the 99 are of the last requests.

   With --postgres an answer is messages, each a letter, the four bytes of its length and the rest, up to the one by
   which PostgreSQL is ready again. The text of its row has to begin with the prefix; without a row the answer itself
   has to. The first COUNT requests of a file come before the clock starts. A transaction that fails since another came
   first is sent again, as PostgreSQL wants it, and all its attempts are timed as one request. */
#define _GNU_SOURCE
#include <arpa/inet.h>
#include <netinet/tcp.h>
#include <pthread.h>
#include <stdint.h>
#include <stdio.h>
#include <stdlib.h>
#include <string.h>
#include <sys/time.h>
#include <time.h>
#include <unistd.h>

enum { LONGEST_PREFIX = 64, LONGEST_ANSWER = 1 << 17, PATIENCE = 30 /* seconds for one answer */ };
enum { READY = 6 /* bytes of the message */, ROW_HEAD = 11 /* bytes before the text of a row of one column */ };
static const char CAME_TOO_LATE[] = "C40001"; /* the field of an error, with the zero after it */

struct request {
    char prefix[LONGEST_PREFIX];
    size_t size;
    char *text;
};

struct talker {
    int port;
    uint64_t nanos;
    struct request *requests;
    size_t count, done;
    uint64_t *took, longest, began, ended;
    pthread_t thread;
};

static pthread_barrier_t begin;
static int is_postgres, is_again;
static size_t before_clock = 1;

static void give_up(const char *what) {
    perror(what);
    exit(1);
}

static uint64_t now(void) {
    struct timespec time;
    clock_gettime(CLOCK_MONOTONIC, &time);
    return (uint64_t)time.tv_sec * 1000000000u + (uint64_t)time.tv_nsec;
}

static void *room(size_t count, size_t size) {
    void *made = calloc(count ? count : 1, size);
    if (!made) give_up("memory");
    return made;
}

static void read_requests(struct talker *talker, const char *path) {
    FILE *file = fopen(path, "rb");
    if (!file) give_up(path);
    struct request next;
    size_t most = 0;
    while (fscanf(file, "%zu %63s", &next.size, next.prefix) == 2) {
        next.text = room(next.size, 1);
        if (fgetc(file) != '\n' || fread(next.text, 1, next.size, file) != next.size) give_up(path);
        if (talker->count == most) {
            most = most ? 2 * most : 1024;
            talker->requests = realloc(talker->requests, most * sizeof next);
            if (!talker->requests) give_up("memory");
        }
        talker->requests[talker->count++] = next;
    }
    fclose(file);
    talker->took = room(talker->count, sizeof *talker->took);
}

static int connected(int port) {
    struct sockaddr_in to = { .sin_family = AF_INET, .sin_port = htons(port) };
    to.sin_addr.s_addr = htonl(INADDR_LOOPBACK);
    struct timeval patience = { .tv_sec = PATIENCE };
    int yes = 1, on = socket(AF_INET, SOCK_STREAM, 0);
    if (on < 0 || connect(on, (struct sockaddr *)&to, sizeof to)) give_up("connect");
    setsockopt(on, IPPROTO_TCP, TCP_NODELAY, &yes, sizeof yes);
    setsockopt(on, SOL_SOCKET, SO_RCVTIMEO, &patience, sizeof patience);
    return on;
}

/* Whether an answer is there to its end. (No text has a zero, so none ends as the message does.) */
static int is_whole(const char *answer, size_t size) {
    if (is_postgres) return size >= READY && !memcmp(answer + size - READY, "Z\0\0\0\5I", READY);
    return size > 0 && answer[size - 1] == '\n';
}

/* Sends the request, and gives the size of its answer. */
static size_t answered(int on, const struct request *request, char *answer) {
    for (size_t sent = 0; sent < request->size;) {
        ssize_t more = write(on, request->text + sent, request->size - sent);
        if (more <= 0) give_up("write");
        sent += (size_t)more;
    }
    size_t size = 0;
    while (!is_whole(answer, size)) {
        ssize_t more = read(on, answer + size, LONGEST_ANSWER - size);
        if (more <= 0) give_up("read");
        size += (size_t)more;
    }
    return size;
}

/* Where PostgreSQL's answer has a message of this kind; its end, where it has none. */
static const char *message(char kind, const char *answer, const char *end) {
    uint32_t size;
    while (answer + 1 + sizeof size <= end && *answer != kind) {
        memcpy(&size, answer + 1, sizeof size);
        answer += 1 + ntohl(size);
    }
    return answer < end ? answer : end;
}

static int begins(const char *text, const char *end, const char *prefix) {
    return (size_t)(end - text) >= strlen(prefix) && !memcmp(text, prefix, strlen(prefix));
}

/* Whether the answer is what the request wants. A commit may fail after its row was sent. */
static int is_wanted(const struct request *request, const char *answer, const char *end) {
    if (!is_postgres) return begins(answer, end, request->prefix);
    const char *row = message('D', answer, end);
    return message('E', answer, end) == end && begins(row < end ? row + ROW_HEAD : answer, end, request->prefix);
}

static int came_too_late(const char *answer, const char *end) {
    const char *error = is_postgres ? message('E', answer, end) : end;
    return error < end && memmem(error, (size_t)(end - error), CAME_TOO_LATE, sizeof CAME_TOO_LATE);
}

static void ask(int on, const struct request *request, char *answer) {
    size_t size;
    do size = answered(on, request, answer);
    while (came_too_late(answer, answer + size));
    if (!is_wanted(request, answer, answer + size)) {
        fprintf(stderr, "%.*s is answered by ", (int)request->size, request->text);
        fwrite(answer, 1, size, stderr);
        exit(1);
    }
}

static void *talk(void *given) {
    struct talker *talker = given;
    char *answer = room(LONGEST_ANSWER, 1);
    int on = connected(talker->port);
    for (size_t n = 0; n < before_clock; n++) ask(on, &talker->requests[n], answer);
    pthread_barrier_wait(&begin);
    talker->began = talker->ended = now();
    size_t timed = talker->count - before_clock;
    while (timed && (is_again || talker->done < timed) && talker->ended - talker->began < talker->nanos) {
        size_t n = talker->done++ % timed;
        uint64_t before = now();
        ask(on, &talker->requests[before_clock + n], answer);
        talker->ended = now();
        talker->took[n] = talker->ended - before;
        if (talker->took[n] > talker->longest) talker->longest = talker->took[n];
    }
    close(on);
    free(answer);
    return NULL;
}

static int by_size(const void *one, const void *other) {
    uint64_t a = *(const uint64_t *)one, b = *(const uint64_t *)other;
    return (a > b) - (a < b);
}

/* How many times of a talker's are kept. */
static size_t times(const struct talker *talker) {
    size_t timed = talker->count - before_clock;
    return talker->done < timed ? talker->done : timed;
}

static void report(const struct talker *talkers, size_t count) {
    uint64_t began = UINT64_MAX, ended = 0, longest = 0;
    size_t done = 0, kept = 0, at = 0;
    for (size_t n = 0; n < count; n++) {
        done += talkers[n].done;
        kept += times(&talkers[n]);
        if (talkers[n].longest > longest) longest = talkers[n].longest;
        if (talkers[n].began < began) began = talkers[n].began;
        if (talkers[n].ended > ended) ended = talkers[n].ended;
    }
    uint64_t *took = room(kept, sizeof *took);
    for (size_t n = 0; n < count; n++) {
        memcpy(took + at, talkers[n].took, times(&talkers[n]) * sizeof *took);
        at += times(&talkers[n]);
    }
    qsort(took, kept, sizeof *took, by_size);
    printf("%zu %.6f %.1f %.1f %.1f\n", done, (double)(ended - began) / 1e9, kept ? took[kept / 2] / 1e3 : 0.0,
           kept ? took[kept * 99 / 100] / 1e3 : 0.0, longest / 1e3);
}

int main(int count, char **words) {
    if (count > 1 && !strcmp(words[1], "--again")) {
        is_again = 1;
        count--;
        words++;
    }
    if (count > 2 && !strcmp(words[1], "--postgres")) {
        is_postgres = 1;
        before_clock = (size_t)atol(words[2]);
        count -= 2;
        words += 2;
    }
    if (count < 4) {
        fprintf(stderr, "usage: serve_load [--again] [--postgres COUNT] PORT SECONDS FILE..\n");
        return 2;
    }
    size_t files = (size_t)count - 3;
    struct talker *talkers = room(files, sizeof *talkers);
    pthread_barrier_init(&begin, NULL, (unsigned)files);
    for (size_t n = 0; n < files; n++) {
        talkers[n].port = atoi(words[1]);
        talkers[n].nanos = (uint64_t)(atof(words[2]) * 1e9);
        read_requests(&talkers[n], words[n + 3]);
        if (talkers[n].count < before_clock) give_up(words[n + 3]);
    }
    for (size_t n = 0; n < files; n++)
        if (pthread_create(&talkers[n].thread, NULL, talk, &talkers[n])) give_up("thread");
    for (size_t n = 0; n < files; n++) pthread_join(talkers[n].thread, NULL);
    report(talkers, files);
    return 0;
}
