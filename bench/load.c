/* Clients of a queue server over loopback, each a thread with a connection and a queue of its own.
 *
 *   load KIND PORT CONNECTIONS CYCLES BODY TOGETHER BATCH WAITING FLYING
 *   load answer PORT
 *
 * KIND is sqd, beanstalkd or echo. Before the cycles WAITING messages are put into each queue and stay there, and FLYING are
 * received from it and not deleted; both are multiples of 100. When all queues are filled, it writes a line "ready", and reads a line
 * before it goes on: so whoever started it may begin to count.
 *
 * Then each connection makes CYCLES cycles: a send of BODY bytes, a receive of the first message that waits, and a delete of what that
 * gave; an echo server gets lines of the length of these. A request is for BATCH messages: for one, or for up to ten, by the batches
 * of sqd. TOGETHER requests of a kind are written at once, and then their replies are read. A line is written: cycles a second, and
 * of each kind of request the microseconds of the middle and of the slowest hundredth, from before its write to after its reply.
 * `load answer` is the echo server: a thread for each connection, which writes what it reads.
 */
#include <arpa/inet.h>
#include <errno.h>
#include <netinet/tcp.h>
#include <pthread.h>
#include <stdarg.h>
#include <stdio.h>
#include <stdlib.h>
#include <string.h>
#include <sys/socket.h>
#include <time.h>
#include <unistd.h>

enum { SEND, RECEIVE, DELETE, KINDS };
/* A queue is filled by so many messages at once. */
enum { MOST_TOGETHER = 64, MOST_BATCH = 10, FILL = 100 };

static const char *kind;
static int port, connections, together, batch;
static long requests, waiting, flying;
static size_t body;
static char *letters;
/* All clients meet there when they have filled their queues, and again when the cycles begin. */
static pthread_barrier_t gate;

struct client {
    int number, socket;
    char *out, *in;
    size_t out_len, in_len, in_at, room;
    char handles[MOST_TOGETHER * MOST_BATCH][64];
    float *took[KINDS];
};

static void fail(const char *what) {
    fprintf(stderr, "load: %s: %s\n", what, strerror(errno));
    exit(1);
}

static double now(void) {
    struct timespec t;
    clock_gettime(CLOCK_MONOTONIC, &t);
    return (double)t.tv_sec * 1e6 + (double)t.tv_nsec / 1e3;
}

static void put(struct client *c, const char *text, size_t len) {
    memcpy(c->out + c->out_len, text, len);
    c->out_len += len;
}

__attribute__((format(printf, 2, 3))) static void say(struct client *c, const char *format, ...) {
    va_list rest;
    va_start(rest, format);
    c->out_len += (size_t)vsnprintf(c->out + c->out_len, c->room - c->out_len, format, rest);
    va_end(rest);
}

static void flush(struct client *c) {
    for (size_t at = 0; at < c->out_len;) {
        ssize_t n = send(c->socket, c->out + at, c->out_len - at, MSG_NOSIGNAL);
        if (n <= 0) fail("send");
        at += (size_t)n;
    }
    c->out_len = 0;
}

static void more(struct client *c) {
    if (c->in_at > 0) {
        memmove(c->in, c->in + c->in_at, c->in_len - c->in_at);
        c->in_len -= c->in_at;
        c->in_at = 0;
    }
    ssize_t n = recv(c->socket, c->in + c->in_len, c->room - c->in_len, 0);
    if (n <= 0) fail("recv");
    c->in_len += (size_t)n;
}

/* The next line, ended by a zero in place of its line feed. */
static char *line(struct client *c, size_t *len) {
    size_t seen = 0;
    for (;;) {
        char *from = c->in + c->in_at;
        char *end = memchr(from + seen, '\n', c->in_len - c->in_at - seen);
        if (end) {
            *end = 0;
            *len = (size_t)(end - from);
            c->in_at = (size_t)(end + 1 - c->in);
            return from;
        }
        seen = c->in_len - c->in_at;
        more(c);
    }
}

static void skip(struct client *c, size_t count) {
    while (c->in_len - c->in_at < count) more(c);
    c->in_at += count;
}

static int is(const char *name) { return strcmp(kind, name) == 0; }

/* What a request of sqd says of one message. */
static void say_message(struct client *c, int what, int at) {
    if (what == SEND) {
        say(c, "\"MessageBody\":\"");
        put(c, letters, body);
        say(c, "\"");
    } else {
        say(c, "\"ReceiptHandle\":\"%s\"", c->handles[at]);
    }
}

/* A request for so many messages, of those that are numbered from `at`. */
static void ask(struct client *c, int what, int at, int messages) {
    static const char *const actions[KINDS] = {"SendMessage", "ReceiveMessage", "DeleteMessage"};
    if (is("beanstalkd")) {
        if (what == SEND) {
            say(c, "put 0 0 3600 %zu\r\n", body);
            put(c, letters, body);
            say(c, "\r\n");
        } else if (what == RECEIVE) {
            say(c, "reserve\r\n");
        } else {
            say(c, "delete %s\r\n", c->handles[at]);
        }
        return;
    }
    int entries = messages > 1 && what != RECEIVE;
    say(c, "{\"Action\":\"%s%s\",\"QueueUrl\":\"http://localhost/000000000000/q%d\"", actions[what], entries ? "Batch" : "", c->number);
    if (entries) {
        for (int it = 0; it < messages; it++) {
            say(c, "%s{\"Id\":\"%d\",", it == 0 ? ",\"Entries\":[" : ",", it);
            say_message(c, what, at + it);
            say(c, "}");
        }
        say(c, "]");
    } else if (what != RECEIVE) {
        say(c, ",");
        say_message(c, what, at);
    } else if (messages > 1) {
        say(c, ",\"MaxNumberOfMessages\":%d", messages);
    }
    say(c, "}\n");
}

static void expect(const char *got, const char *front) {
    if (strncmp(got, front, strlen(front)) != 0) {
        fprintf(stderr, "load: a reply is %.200s, and not %s\n", got, front);
        exit(1);
    }
}

/* How often a text is there. */
static int count_of(const char *text, const char *part) {
    int count = 0;
    while ((text = strstr(text, part)) != NULL) {
        count++;
        text += strlen(part);
    }
    return count;
}

static void read_reply(struct client *c, int what, int at, int messages) {
    size_t len;
    char *got = line(c, &len);
    if (is("echo")) return;
    if (is("beanstalkd")) {
        if (what == RECEIVE) {
            size_t size;
            if (sscanf(got, "RESERVED %63s %zu", c->handles[at], &size) != 2) expect(got, "RESERVED");
            skip(c, size + 2);
        } else {
            expect(got, what == SEND ? "INSERTED" : "DELETED");
        }
    } else if (what == RECEIVE) {
        char *from = got;
        for (int it = 0; it < messages; it++) {
            char *handle = strstr(from, "\"ReceiptHandle\":\"");
            if (!handle) expect(got, "as many messages as were asked for");
            memcpy(c->handles[at + it], handle + 17, 51);
            from = handle + 17 + 51;
        }
        expect(from, "\"}]}");
    } else if (messages > 1) {
        expect(got, "{\"Failed\":[],\"Successful\":[");
        if (count_of(got, "\"Id\":\"") != messages) expect(got, "as many entries as were asked for");
    } else {
        expect(got, what == SEND ? "{\"MD5OfMessageBody\"" : "{}");
    }
}

/* So many requests of a kind at once, each for so many messages, and their replies; the microseconds of each are kept. */
static void exchange(struct client *c, int what, int many, int messages, float *took) {
    double begun = now();
    for (int at = 0; at < many; at++) ask(c, what, at * messages, messages);
    flush(c);
    for (int at = 0; at < many; at++) {
        read_reply(c, what, at * messages, messages);
        took[at] = (float)(now() - begun);
    }
}

/* Puts so many messages into the queue of a client, and receives them where they are to be in flight. */
static void fill(struct client *c, long count, int last) {
    float passed[FILL];
    int messages = is("sqd") ? MOST_BATCH : 1;
    for (long done = 0; done < count; done += FILL)
        for (int what = SEND; what <= last; what++) exchange(c, what, FILL / messages, messages, passed);
}

static struct client *opened(int number) {
    struct client *c = calloc(1, sizeof *c);
    struct sockaddr_in to = {.sin_family = AF_INET, .sin_port = htons((uint16_t)port), .sin_addr.s_addr = htonl(INADDR_LOOPBACK)};
    int one = 1;
    if (!c) fail("memory");
    c->number = number;
    c->room = (size_t)(MOST_TOGETHER * MOST_BATCH) * (body + 512);
    c->out = malloc(c->room);
    c->in = malloc(c->room);
    for (int what = 0; what < KINDS; what++) c->took[what] = malloc(sizeof(float) * (size_t)requests);
    c->socket = socket(AF_INET, SOCK_STREAM, 0);
    if (c->socket < 0 || connect(c->socket, (struct sockaddr *)&to, sizeof to) != 0) fail("connect");
    setsockopt(c->socket, IPPROTO_TCP, TCP_NODELAY, &one, sizeof one);
    size_t len;
    if (is("sqd")) {
        say(c, "{\"Action\":\"CreateQueue\",\"QueueName\":\"q%d\",\"Attributes\":{\"VisibilityTimeout\":\"3600\"}}\n", number);
        flush(c);
        expect(line(c, &len), "{\"QueueUrl\"");
    } else if (is("beanstalkd")) {
        say(c, "use q%d\r\nwatch q%d\r\nignore default\r\n", number, number);
        flush(c);
        for (int it = 0; it < 3; it++) line(c, &len);
    }
    return c;
}

static void *run(void *given) {
    struct client *c = given;
    /* beanstalkd goes through all that a connection has reserved whenever it deletes one of them: so another one holds these. */
    fill(flying > 0 && is("beanstalkd") ? opened(c->number) : c, flying, RECEIVE);
    fill(c, waiting, SEND);
    pthread_barrier_wait(&gate);
    pthread_barrier_wait(&gate);
    for (long done = 0; done < requests; done += together)
        for (int what = 0; what < KINDS; what++) exchange(c, what, together, batch, c->took[what] + done);
    return NULL;
}

static int by_size(const void *a, const void *b) {
    float x = *(const float *)a, y = *(const float *)b;
    return (x > y) - (x < y);
}

static void *echo(void *given) {
    int socket = (int)(long)given;
    char *buffer = malloc(1 << 20);
    ssize_t n;
    while ((n = recv(socket, buffer, 1 << 20, 0)) > 0)
        for (ssize_t at = 0; at < n;) {
            ssize_t put = send(socket, buffer + at, (size_t)(n - at), MSG_NOSIGNAL);
            if (put <= 0) return NULL;
            at += put;
        }
    close(socket);
    free(buffer);
    return NULL;
}

static void answer(int at) {
    struct sockaddr_in here = {.sin_family = AF_INET, .sin_port = htons((uint16_t)at), .sin_addr.s_addr = htonl(INADDR_LOOPBACK)};
    int one = 1, listener = socket(AF_INET, SOCK_STREAM, 0);
    setsockopt(listener, SOL_SOCKET, SO_REUSEADDR, &one, sizeof one);
    if (bind(listener, (struct sockaddr *)&here, sizeof here) != 0 || listen(listener, 128) != 0) fail("listen");
    for (;;) {
        pthread_t thread;
        int client = accept(listener, NULL, NULL);
        if (client < 0) fail("accept");
        setsockopt(client, IPPROTO_TCP, TCP_NODELAY, &one, sizeof one);
        if (pthread_create(&thread, NULL, echo, (void *)(long)client) != 0) fail("pthread_create");
        pthread_detach(thread);
    }
}

int main(int count, char **words) {
    if (count == 3 && strcmp(words[1], "answer") == 0) answer(atoi(words[2]));
    if (count != 10) {
        fprintf(stderr, "load KIND PORT CONNECTIONS CYCLES BODY TOGETHER BATCH WAITING FLYING\nload answer PORT\n");
        return 2;
    }
    kind = words[1];
    port = atoi(words[2]);
    connections = atoi(words[3]);
    body = (size_t)atol(words[5]);
    together = atoi(words[6]);
    batch = atoi(words[7]);
    waiting = atol(words[8]);
    flying = atol(words[9]);
    if (together < 1 || together > MOST_TOGETHER || batch < 1 || batch > (is("sqd") ? MOST_BATCH : 1)) return 2;
    requests = atol(words[4]) / (together * batch) * together;
    if (connections < 1 || requests < 1 || waiting % FILL != 0 || flying % FILL != 0) return 2;
    letters = malloc(body + 1);
    memset(letters, 'x', body);
    struct client **all = malloc(sizeof *all * (size_t)connections);
    pthread_t *threads = malloc(sizeof *threads * (size_t)connections);
    pthread_barrier_init(&gate, NULL, (unsigned)connections + 1);
    for (int it = 0; it < connections; it++) all[it] = opened(it);
    for (int it = 0; it < connections; it++)
        if (pthread_create(&threads[it], NULL, run, all[it]) != 0) fail("pthread_create");
    pthread_barrier_wait(&gate);
    printf("ready\n");
    fflush(stdout);
    if (getchar() == EOF) fail("no line to begin");
    pthread_barrier_wait(&gate);
    double begun = now();
    for (int it = 0; it < connections; it++) pthread_join(threads[it], NULL);
    double seconds = (now() - begun) / 1e6;
    printf("%.0f", (double)requests * batch * connections / seconds);
    for (int what = 0; what < KINDS; what++) {
        size_t n = (size_t)requests * (size_t)connections, at = 0;
        float *took = malloc(sizeof(float) * n);
        for (int it = 0; it < connections; it++)
            for (long each = 0; each < requests; each++) took[at++] = all[it]->took[what][each];
        qsort(took, n, sizeof(float), by_size);
        printf(" %.1f %.1f", took[n / 2], took[n - 1 - n / 100]);
    }
    printf("\n");
    return 0;
}
