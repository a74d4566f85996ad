/* Clients of a host, or of a Redis server, on 127.0.0.1: connections over a few processes, each of which asks, reads all
   replies to that, and asks again.

       host_load PORT CLIENTS KIND AT_ONCE SECONDS PROCESSES

   KIND is 'lines' or 'web' (`var 0`, over TCP or in a text message of a WebSocket), 'ping' or 'get' (of Redis), or
   'event' (over TCP, whose times the clients take from one clock; 96,000 in all at most). AT_ONCE says how many are
   asked at once. It prints how many replies a second came, and ends with status 1 where one did not, or was of another
   kind: of a reply the first letter is compared.

       host_load PORT CLIENTS KIND idle SECONDS 1

   opens connections, asks each once, prints `ready`, and does nothing for so long.

       host_load PORT CLIENTS event push SECONDS 1

   has one more connection watch the log, and prints how many records it was pushed, and how many microseconds behind
   their sending: at the median, at 99 of 100, and at most. */
#define _GNU_SOURCE
#include <arpa/inet.h>
#include <netinet/tcp.h>
#include <stdint.h>
#include <stdio.h>
#include <stdlib.h>
#include <string.h>
#include <sys/epoll.h>
#include <sys/mman.h>
#include <sys/resource.h>
#include <sys/socket.h>
#include <sys/wait.h>
#include <time.h>
#include <unistd.h>

enum { MOST_AT_ONCE = 1024, ALL_EVENTS = 96000, MOST_READ = 65536 };
enum kind { LINES, WEB, PING, GET, EVENT };

/* A connection: how many replies it waits for, and where it is in what comes: of lines whether one begins, and whether
   the value of a GET comes next; of frames the bytes of the head that came, and how many of the text are left. */
struct client {
    int it, number, waits, begins, is_value, head, left;
    unsigned char heads[4];
};

struct shared {
    long clock, replies;
};

static enum kind kind;
static int port, at_once;
static struct shared *shared;
static char question[MOST_AT_ONCE * 64];
static size_t length;

static void fail(const char *what) {
    fprintf(stderr, "host_load: %s\n", what);
    exit(1);
}

static int64_t now(void) {
    struct timespec at;
    clock_gettime(CLOCK_MONOTONIC, &at);
    return at.tv_sec * INT64_C(1000000000) + at.tv_nsec;
}

static void send_all(int it, const char *bytes, size_t size) {
    while (size > 0) {
        ssize_t some = send(it, bytes, size, MSG_NOSIGNAL);
        if (some <= 0) fail("a question was not taken");
        bytes += some;
        size -= some;
    }
}

static int connected(void) {
    struct sockaddr_in to = {.sin_family = AF_INET, .sin_port = htons(port), .sin_addr.s_addr = htonl(INADDR_LOOPBACK)};
    int made = socket(AF_INET, SOCK_STREAM, 0), yes = 1;
    if (made < 0 || connect(made, (struct sockaddr *)&to, sizeof to) < 0) fail("no connection");
    setsockopt(made, IPPROTO_TCP, TCP_NODELAY, &yes, sizeof yes);
    struct timeval most = {.tv_sec = 20};
    setsockopt(made, SOL_SOCKET, SO_RCVTIMEO, &most, sizeof most);
    return made;
}

/* Asks for a WebSocket, and reads the answer, byte by byte, so that nothing behind it is. */
static void upgrade(int it) {
    char text[512], got[4096];
    size_t size = sprintf(text,
        "GET /ws HTTP/1.1\r\nHost: 127.0.0.1:%d\r\nUpgrade: websocket\r\nConnection: Upgrade\r\n"
        "Sec-WebSocket-Key: dGhlIHNhbXBsZSBub25jZQ==\r\nSec-WebSocket-Version: 13\r\n\r\n", port);
    send_all(it, text, size);
    for (size = 0; size < 4 || memcmp(got + size - 4, "\r\n\r\n", 4); size++)
        if (size == sizeof got || read(it, got + size, 1) != 1) fail("no upgrade");
    if (memcmp(got, "HTTP/1.1 101", 12)) fail("no upgrade");
}

/* The bytes of a question: so many lines, in one message where they go over a WebSocket. */
static void prepare(void) {
    static const char *words[] = {"var 0\n", "var 0\n", "PING\r\n", "GET k\r\n", ""};
    char text[MOST_AT_ONCE * 16];
    size_t size = 0;
    for (int i = 0; i < at_once; i++) size += sprintf(text + size, "%s", words[kind]);
    if (kind == WEB) {
        size--;
        question[length++] = (char)0x81;
        if (size < 126) {
            question[length++] = (char)(0x80 | size);
        } else {
            question[length++] = (char)(0x80 | 126);
            question[length++] = (char)(size >> 8);
            question[length++] = (char)size;
        }
        length += 4; /* a mask of zeros */
    }
    memcpy(question + length, text, size);
    length += size;
}

static void ask(struct client *client) {
    client->waits = at_once;
    if (kind != EVENT) {
        send_all(client->it, question, length);
        return;
    }
    char text[MOST_AT_ONCE * 96];
    size_t size = 0;
    for (int i = 0; i < at_once; i++) {
        long time = __atomic_fetch_add(&shared->clock, 1, __ATOMIC_RELAXED);
        if (time >= ALL_EVENTS) {
            client->waits = i;
            break;
        }
        size += sprintf(text + size, "event %d %ld 0 %d %lld\n", client->number % 2, time, client->number % 2, (long long)now());
    }
    send_all(client->it, text, size);
}

/* How many replies end in these bytes, which are lines. */
static int count_lines(struct client *client, const char *got, size_t size) {
    static const char first[] = "vv+$t";
    int count = 0;
    for (const char *at = got, *end = got + size; at < end;) {
        char wanted = client->is_value ? 'h' : first[kind];
        if (client->begins && *at != wanted) fail("a question was answered otherwise");
        const char *feed = memchr(at, '\n', end - at);
        client->begins = feed != NULL;
        if (!feed) break;
        if (kind == GET) client->is_value = !client->is_value;
        count += !client->is_value;
        at = feed + 1;
    }
    return count;
}

/* How many replies end in these bytes, which are text messages of one or more lines. */
static int count_messages(struct client *client, const char *got, size_t size) {
    int count = 0;
    for (size_t at = 0; at < size;) {
        if (client->left == 0) {
            client->heads[client->head++] = (unsigned char)got[at++];
            int is_long = client->head > 1 && client->heads[1] == 126;
            if (client->heads[0] != 0x81 || (client->head > 1 && client->heads[1] > 126)) fail("another frame");
            if (client->head < (is_long ? 4 : 2)) continue;
            client->left = is_long ? client->heads[2] << 8 | client->heads[3] : client->heads[1];
            client->head = 0;
            client->begins = 1;
            if (client->left == 0) fail("a message of nothing");
            continue;
        }
        size_t most = size - at < (size_t)client->left ? size - at : (size_t)client->left;
        for (const char *it = got + at, *end = it + most; it < end; it++) {
            if (client->begins && *it != 'v') fail("a question was answered otherwise");
            client->begins = *it == '\n';
            count += *it == '\n';
        }
        at += most;
        client->left -= most;
        count += client->left == 0;
    }
    return count;
}

/* Reads what there is, and gives how many replies that ends. */
static int hear(struct client *client) {
    static char got[MOST_READ];
    ssize_t size = read(client->it, got, sizeof got);
    if (size <= 0) fail("a question was not answered");
    int count = kind == WEB ? count_messages(client, got, size) : count_lines(client, got, size);
    client->waits -= count;
    if (client->waits < 0) fail("more replies than questions");
    return count;
}

static struct client *open_clients(int first, int count) {
    struct client *clients = calloc(count, sizeof *clients);
    if (!clients) fail("no memory");
    for (int i = 0; i < count; i++) {
        clients[i] = (struct client){.it = connected(), .number = first + i, .begins = 1};
        if (kind == WEB) upgrade(clients[i].it);
        ask(&clients[i]);
        while (clients[i].waits > 0) hear(&clients[i]);
    }
    return clients;
}

/* What a process does with its clients, until the time is over. */
static void converse(struct client *clients, int count, double seconds) {
    struct epoll_event events[512];
    int poll = epoll_create1(0);
    for (int i = 0; i < count; i++) {
        struct epoll_event one = {.events = EPOLLIN, .data.ptr = &clients[i]};
        if (epoll_ctl(poll, EPOLL_CTL_ADD, clients[i].it, &one)) fail("no events");
    }
    long replies = 0;
    int64_t end = now() + (int64_t)(seconds * 1e9);
    for (int i = 0; i < count; i++) ask(&clients[i]);
    while (now() < end) {
        int some = epoll_wait(poll, events, 512, 100);
        for (int i = 0; i < some; i++) {
            struct client *client = events[i].data.ptr;
            replies += hear(client);
            if (client->waits == 0) ask(client);
        }
    }
    __atomic_fetch_add(&shared->replies, replies, __ATOMIC_RELAXED);
}

static int compare(const void *left, const void *right) {
    int64_t a = *(const int64_t *)left, b = *(const int64_t *)right;
    return a < b ? -1 : a > b;
}

/* Watches the log until the time is over, and prints how long pushes took. */
static void watch(double seconds) {
    static int64_t delays[ALL_EVENTS];
    static char got[MOST_READ];
    size_t kept = 0, count = 0;
    int it = connected();
    struct timeval most = {.tv_sec = 1};
    setsockopt(it, SOL_SOCKET, SO_RCVTIMEO, &most, sizeof most);
    send_all(it, "watch log 1\n", 12);
    int64_t end = now() + (int64_t)(seconds * 1e9);
    while (now() < end && count < ALL_EVENTS) {
        ssize_t size = read(it, got + kept, sizeof got - kept);
        if (size <= 0) break;
        int64_t at = now();
        char *line = got, *last = got + kept + size, *feed;
        while ((feed = memchr(line, '\n', last - line))) {
            *feed = 0;
            char *value = strrchr(line, ' ');
            if (line[0] == '*' && count < ALL_EVENTS) delays[count++] = at - atoll(value + 1);
            line = feed + 1;
        }
        kept = last - line;
        memmove(got, line, kept);
    }
    if (count == 0) fail("nothing was pushed");
    qsort(delays, count, sizeof *delays, compare);
    printf("%zu %.0f %.0f %.0f\n", count, delays[count / 2] / 1e3, delays[count - 1 - count / 100] / 1e3, delays[count - 1] / 1e3);
}

/* Each process opens its share of the clients, says so, and begins when all are there. */
static void run(int clients, double seconds, int processes, int is_watched) {
    int ready[2], go[2];
    if (pipe(ready) || pipe(go)) fail("no pipe");
    for (int i = 0; i < processes; i++) {
        if (fork()) continue;
        char byte = 0;
        int first = (int)((long)clients * i / processes), count = (int)((long)clients * (i + 1) / processes) - first;
        struct client *mine = open_clients(first, count);
        close(go[1]);
        if (write(ready[1], &byte, 1) != 1 || read(go[0], &byte, 1) < 0) fail("no start");
        converse(mine, count, seconds);
        exit(0);
    }
    char byte;
    close(ready[1]);
    for (int i = 0; i < processes; i++)
        if (read(ready[0], &byte, 1) != 1) fail("a process did not begin");
    close(go[1]); /* all begin */
    if (is_watched) watch(seconds);
}

int main(int count, char **words) {
    static const char *kinds[] = {"lines", "web", "ping", "get", "event"};
    if (count != 7) fail("host_load PORT CLIENTS KIND AT_ONCE SECONDS PROCESSES");
    int clients = atoi(words[2]), is_idle = !strcmp(words[4], "idle"), is_watched = !strcmp(words[4], "push");
    double seconds = atof(words[5]);
    port = atoi(words[1]);
    at_once = is_idle || is_watched ? 1 : atoi(words[4]);
    while (kind <= EVENT && strcmp(words[3], kinds[kind])) kind++;
    if (kind > EVENT || at_once < 1 || at_once > MOST_AT_ONCE) fail("no such kind");
    struct rlimit files;
    getrlimit(RLIMIT_NOFILE, &files);
    files.rlim_cur = files.rlim_max;
    setrlimit(RLIMIT_NOFILE, &files);
    shared = mmap(NULL, sizeof *shared, PROT_READ | PROT_WRITE, MAP_SHARED | MAP_ANONYMOUS, -1, 0);
    if (shared == MAP_FAILED) fail("no memory");
    prepare();
    if (is_idle) {
        open_clients(0, clients);
        printf("ready\n");
        fflush(stdout);
        usleep((useconds_t)(seconds * 1e6));
        return 0;
    }
    run(clients, seconds, atoi(words[6]), is_watched);
    int is_wrong = 0, status;
    while (wait(&status) > 0) is_wrong |= status != 0;
    if (!is_watched) printf("%.0f\n", shared->replies / seconds);
    return is_wrong;
}
