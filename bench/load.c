/* Clients of a server on 127.0.0.1: each a process that asks lines and reads their replies, until its time is over.

       load PORT CLIENTS KIND SECONDS

   KIND is 'ask' (`var 0`, one by one), 'event' (events, one by one, whose times the clients take from one clock; 96,000
   in all at most), 'many' (64 times `var 0` at once) or 'push' (the same events, to a list of Redis). It prints how many lines a second were answered, and ends with
   status 1 where one was not, was refused, or got a reply of another kind: of a reply the first letter is compared. */
#include <arpa/inet.h>
#include <netinet/tcp.h>
#include <stdio.h>
#include <stdlib.h>
#include <string.h>
#include <sys/mman.h>
#include <sys/socket.h>
#include <sys/wait.h>
#include <time.h>
#include <unistd.h>

enum { AT_ONCE = 64, ALL_EVENTS = 96000 };

struct result {
    long lines;
    double seconds;
};

static double now(void) {
    struct timespec at;
    clock_gettime(CLOCK_MONOTONIC, &at);
    return at.tv_sec + at.tv_nsec / 1e9;
}

static void fail(const char *what) {
    fprintf(stderr, "load: %s\n", what);
    exit(1);
}

static int connected(int port) {
    struct sockaddr_in to = {.sin_family = AF_INET, .sin_port = htons(port), .sin_addr.s_addr = htonl(INADDR_LOOPBACK)};
    int made = socket(AF_INET, SOCK_STREAM, 0), yes = 1;
    if (made < 0 || connect(made, (struct sockaddr *)&to, sizeof to) < 0) fail("no connection");
    setsockopt(made, IPPROTO_TCP, TCP_NODELAY, &yes, sizeof yes);
    struct timeval most = {.tv_sec = 20};
    setsockopt(made, SOL_SOCKET, SO_RCVTIMEO, &most, sizeof most);
    return made;
}

/* Sends lines, and reads so many replies, each of which begins with the first letter of this word. */
static void converse(int it, const char *lines, size_t length, int count, const char *word) {
    char got[65536];
    size_t size = 0;
    int begins = 1;
    for (size_t sent = 0; sent < length;) {
        ssize_t some = write(it, lines + sent, length - sent);
        if (some <= 0) fail("a line was not taken");
        sent += some;
    }
    while (count > 0) {
        ssize_t some = read(it, got, sizeof got);
        if (some <= 0) fail("a line was not answered");
        if (begins && got[0] != word[0]) fail("a line was answered otherwise");
        char *at = got, *end = got + some;
        while ((at = memchr(at, '\n', end - at))) {
            at++;
            count--;
            if (at < end && *at != word[0]) fail("a line was answered otherwise");
        }
        begins = end[-1] == '\n';
        size += some;
    }
}

static struct result client(int it, int number, long *clock, const char *kind, double seconds) {
    char text[AT_ONCE * 64];
    int is_push = !strcmp(kind, "push"), is_event = is_push || !strcmp(kind, "event");
    int at_once = !strcmp(kind, "many") ? AT_ONCE : 1;
    const char *form = is_push ? "RPUSH journal \"event %d %ld 0 %d %ld\"\r\n" : "event %d %ld 0 %d %ld\n";
    size_t length = 0;
    for (int i = 0; i < at_once; i++) length += sprintf(text + length, "var 0\n");
    double began = now();
    long lines = 0;
    while (now() - began < seconds) {
        if (is_event) {
            long time = __atomic_fetch_add(clock, 1, __ATOMIC_RELAXED);
            if (time >= ALL_EVENTS) break;
            length = sprintf(text, form, number % 2, time, number % 2, time % 997);
        }
        converse(it, text, length, at_once, is_push ? ":" : is_event ? "taken" : "var");
        lines += at_once;
    }
    return (struct result){lines, now() - began};
}

int main(int count, char **words) {
    int ready[2], go[2], told[2];
    if (count != 5 || pipe(ready) || pipe(go) || pipe(told)) fail("load PORT CLIENTS KIND SECONDS");
    int port = atoi(words[1]), clients = atoi(words[2]);
    long *clock = mmap(NULL, sizeof *clock, PROT_READ | PROT_WRITE, MAP_SHARED | MAP_ANONYMOUS, -1, 0);
    if (clock == MAP_FAILED) fail("no memory");
    for (int number = 0; number < clients; number++) {
        if (fork()) continue;
        char byte = 0;
        int it = connected(port);
        close(go[1]);
        if (!strcmp(words[3], "push")) converse(it, "PING\r\n", 6, 1, "+PONG");
        else converse(it, "var 0\n", 6, 1, "var");
        if (write(ready[1], &byte, 1) != 1 || read(go[0], &byte, 1) < 0) fail("no start");
        struct result result = client(it, number, clock, words[3], atof(words[4]));
        if (write(told[1], &result, sizeof result) != sizeof result) fail("no result told");
        exit(0);
    }
    char byte;
    close(ready[1]);
    close(told[1]);
    for (int number = 0; number < clients; number++)
        if (read(ready[0], &byte, 1) != 1) fail("a client did not begin");
    close(go[1]); /* all begin */
    long lines = 0;
    double longest = 0;
    struct result one;
    while (read(told[0], &one, sizeof one) == sizeof one) {
        lines += one.lines;
        if (one.seconds > longest) longest = one.seconds;
    }
    int is_wrong = 0, status;
    while (wait(&status) > 0) is_wrong |= status != 0;
    printf("%.0f\n", lines / longest);
    return is_wrong;
}
