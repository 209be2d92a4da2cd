// A load for servers of the memcached text protocol, which measures requests a second and latencies.
//
//   load HOST PORT [--connections N] [--threads N] [--pipeline N] [--seconds S] [--reads N] [--keys N] [--value BYTES]
//                  [--sets PERCENT] [--deletes PERCENT] [--many KEYS] [--zipf EXPONENT] [--rate R] [--fill] [--through]
//                  [--ttls | --long-ttls] [--seed N] [--first N]
//
// Each connection keeps a pipeline of requests on its way: it sends them in one piece, reads all their answers, and sends
// the next ones. A latency is the time from that send to the last byte of the request's answer. Each answer is checked: its keys are
// those that were asked, in order, and each value is the one that its key has to hold. --fill writes each key once and measures
// nothing. --first says with which number the keys begin.
// --many asks for this number of keys in one get. --rate sends this number of requests a second in all, evenly, in place
// of as many as can be. --through writes each key that was missed, as a client of a cache does: at the front of the next pipeline, beyond its
// number of requests and their rate. --ttls writes half of the keys with a TTL of 60 seconds, three tenths with 600; --long-ttls
// four tenths with 300 seconds, four with 3,600, and two with 86,400. --reads
// ends after this number of keys was asked, in place of after some seconds; one connection asks the same keys in the same order each
// time. The last line is of words NAME=FIGURE; `busy` is the share of the time that the threads ran: near 1 the load itself is
// what limits.
#define _GNU_SOURCE
#include <arpa/inet.h>
#include <errno.h>
#include <fcntl.h>
#include <math.h>
#include <netinet/in.h>
#include <netinet/tcp.h>
#include <pthread.h>
#include <stdbool.h>
#include <stdint.h>
#include <stdio.h>
#include <stdlib.h>
#include <string.h>
#include <sys/epoll.h>
#include <sys/resource.h>
#include <sys/socket.h>
#include <time.h>
#include <unistd.h>

struct options {
    const char *host;
    int port, connections, threads, pipeline, many, sets, deletes, keys, first, value, seed;
    double seconds, rate, zipf;
    long reads;
    bool fill, through, ttls, long_ttls;
};

static struct options options = {
    .connections = 50, .threads = 2, .pipeline = 1, .many = 1, .sets = 0, .keys = 100000, .value = 100, .seed = 1, .seconds = 3,
};

enum { MOST_LATENCIES = 1 << 20, LETTERS = 26, TAILS = 10, KEY_LENGTH = 11, LONGEST_KEY = 32 };

// What memcached answers to a set now and then, if all the items that it could let go are in use: it is counted.
#define REFUSED "SERVER_ERROR out of memory storing object\r\n"

// What is asked, and how its answer is read.
enum kind { GET, SET, DELETE };

struct request {
    enum kind kind;
    int first_key;
};

struct connection {
    int fd;
    struct request *asked;
    int waiting, answered;          // requests on their way, and those of them that are answered
    char *out;
    size_t out_length, out_sent;
    char *in;
    size_t in_length, in_room;
    double sent_at, next_at;
    int next_fill, end_fill;
    int *missed, missed_count;      // the keys that were missed and are to be written
};

struct worker {
    pthread_t thread;
    int first, count;               // its connections
    uint64_t seed, requests, hits, keys_asked, refused;
    uint32_t *latencies;            // in microseconds
    uint64_t latencies_seen;
    bool failed;
};

static struct connection *connections;
static double *zipf_sums;
static char *values;                // for each letter the value that is full of it, with its line's end
static char tails[TAILS][32];       // by a key's last digit what follows the key in its set: flags, TTL and length
static volatile bool is_over;

static double now(void) {
    struct timespec t;
    clock_gettime(CLOCK_MONOTONIC, &t);
    return t.tv_sec + t.tv_nsec / 1e9;
}

static void die(const char *what) {
    perror(what);
    exit(1);
}

static uint64_t next_random(uint64_t *seed) {
    uint64_t z = (*seed += 0x9e3779b97f4a7c15ULL);
    z = (z ^ (z >> 30)) * 0xbf58476d1ce4e5b9ULL;
    z = (z ^ (z >> 27)) * 0x94d049bb133111ebULL;
    return z ^ (z >> 31);
}

// A key by Zipf's law, or any with the same chance.
static int pick_key(uint64_t *seed) {
    uint64_t random = next_random(seed);
    if (options.zipf == 0) return random % options.keys;
    double at = (random >> 11) * 0x1p-53 * zipf_sums[options.keys - 1];
    int low = 0, high = options.keys - 1;
    while (low < high) {
        int middle = low + (high - low) / 2;
        if (zipf_sums[middle] < at) low = middle + 1; else high = middle;
    }
    // (spread over the keys, so that those asked often aren't neighbours)
    return (int)((uint64_t)low * 2654435761u % options.keys);
}

// The value of a key, with its line's end.
static const char *value_of(int key) { return values + (size_t)(key % LETTERS) * (options.value + 2); }

static void make_values(void) {
    values = malloc((size_t)LETTERS * (options.value + 2));
    for (int letter = 0; letter < LETTERS; letter++) {
        char *value = values + (size_t)letter * (options.value + 2);
        memset(value, 'a' + letter, options.value);
        memcpy(value + options.value, "\r\n", 2);
    }
}

static void make_tails(void) {
    static const int none[TAILS], some[TAILS] = {60, 600, 60, 0, 60, 600, 60, 0, 60, 600};
    static const int longer[TAILS] = {300, 3600, 300, 86400, 3600, 300, 3600, 86400, 300, 3600};
    const int *ttls = options.ttls ? some : options.long_ttls ? longer : none;
    for (int i = 0; i < TAILS; i++) sprintf(tails[i], " 0 %d %d\r\n", ttls[i], options.value);
}

// The key's name: "key-" and seven digits.
static void write_key(char *out, int key) {
    memcpy(out, "key-", 4);
    key += options.first;
    for (int i = KEY_LENGTH - 1; i >= 4; i--, key /= 10) out[i] = '0' + key % 10;
}

static void add(struct connection *c, const char *bytes, size_t length) {
    memcpy(c->out + c->out_length, bytes, length);
    c->out_length += length;
}

static void add_key(struct connection *c, int key) {
    write_key(c->out + c->out_length, key);
    c->out_length += KEY_LENGTH;
}

static void add_set(struct connection *c, int key) {
    add(c, "set ", 4);
    add_key(c, key);
    add(c, tails[key % TAILS], strlen(tails[key % TAILS]));
    add(c, value_of(key), options.value + 2);
}

static void add_delete(struct connection *c, int key) {
    add(c, "delete ", 7);
    add_key(c, key);
    add(c, "\r\n", 2);
}

static void add_get(struct connection *c, int key) {
    add(c, "get", 3);
    for (int i = 0; i < options.many; i++) {
        add(c, " ", 1);
        add_key(c, (key + i) % options.keys);
    }
    add(c, "\r\n", 2);
}

// The next request of a connection. False if nothing is left.
static bool next_request(struct worker *w, struct connection *c, struct request *r) {
    if (options.fill) {
        if (c->next_fill >= c->end_fill) return false;
        *r = (struct request){SET, c->next_fill++};
    } else {
        int drawn = next_random(&w->seed) % 100;
        enum kind kind = drawn < options.sets ? SET : drawn < options.sets + options.deletes ? DELETE : GET;
        *r = (struct request){kind, pick_key(&w->seed)};
    }
    return true;
}

static void ask(struct connection *c, struct request r) {
    if (r.kind == SET) add_set(c, r.first_key);
    else if (r.kind == DELETE) add_delete(c, r.first_key);
    else add_get(c, r.first_key);
    c->asked[c->waiting++] = r;
}

// Writes the next pipeline into the buffer, after what was missed in the last one. False if there is nothing left to ask.
static bool make_pipeline(struct worker *w, struct connection *c) {
    struct request next;
    c->out_length = c->out_sent = 0;
    c->waiting = c->answered = 0;
    for (; c->missed_count > 0; c->missed_count--) ask(c, (struct request){SET, c->missed[c->missed_count - 1]});
    for (int i = 0; i < options.pipeline && next_request(w, c, &next); i++) ask(c, next);
    return c->waiting > 0;
}

// Whether the bytes, as far as they have come, are those of the text.
static bool can_be(const char *in, size_t length, const char *text, size_t text_length) {
    return !memcmp(in, text, length < text_length ? length : text_length);
}

// The length of one VALUE with its block, 0 if it isn't whole yet, or -1 if it is none; `nth` becomes the number of its
// key in the request, which has to be `*nth` or a later one.
static long value_length(const struct request *r, const char *in, size_t length, int *nth) {
    size_t head = 6 + KEY_LENGTH;
    if (!can_be(in, length, "VALUE ", 6)) return -1;
    if (length < head + 8) return 0;
    for (;; ++*nth) {
        char name[KEY_LENGTH];
        if (*nth >= options.many) return -1;
        write_key(name, (r->first_key + *nth) % options.keys);
        if (!memcmp(name, in + 6, KEY_LENGTH)) break;
    }
    const char *end = memchr(in + head, '\n', length - head < 32 ? length - head : 32);
    if (!end) return length - head < 32 ? 0 : -1;
    size_t value = end + 1 - in, size = options.value + 2;
    if (value + size > length) return 0;
    return memcmp(in + value, value_of((r->first_key + *nth) % options.keys), size) ? -1 : (long)(value + size);
}

// The length of a line that the bytes begin with, 0 if it isn't whole yet, or -1 if it is another one.
static long line_length(const char *in, size_t length, const char *line) {
    size_t whole = strlen(line);
    if (!can_be(in, length, line, whole)) return -1;
    return length < whole ? 0 : (long)whole;
}

// The length of the answer that the bytes begin with, 0 if it isn't whole yet, or -1 if it is none.
static long answer_length(struct worker *w, struct connection *c, const struct request *r, const char *in, size_t length) {
    if (r->kind == SET) {
        long refused = line_length(in, length, REFUSED);
        if (refused > 0) w->refused++;
        return refused >= 0 ? refused : line_length(in, length, "STORED\r\n");
    }
    if (r->kind == DELETE) {
        long deleted = line_length(in, length, "DELETED\r\n");
        return deleted >= 0 ? deleted : line_length(in, length, "NOT_FOUND\r\n");
    }
    size_t at = 0;
    uint64_t hits = 0;
    for (int nth = 0;; nth++, hits++) {
        if (length - at >= 5 && !memcmp(in + at, "END\r\n", 5)) break;
        if (can_be(in + at, length - at, "END\r\n", 5)) return 0;
        long one = value_length(r, in + at, length - at, &nth);
        if (one <= 0) return one;
        at += one;
    }
    w->hits += hits;
    w->keys_asked += options.many;
    if (options.through && hits == 0) c->missed[c->missed_count++] = r->first_key;
    return at + 5;
}

static void note_latency(struct worker *w, double seconds) {
    uint64_t place = w->latencies_seen++;
    if (place >= MOST_LATENCIES) place = next_random(&w->seed) % w->latencies_seen;
    if (place < MOST_LATENCIES) w->latencies[place] = (uint32_t)(seconds * 1e6);
}

// Reads what came. False if the server went away or answered what it must not.
static bool read_answers(struct worker *w, struct connection *c) {
    ssize_t got = recv(c->fd, c->in + c->in_length, c->in_room - c->in_length, 0);
    if (got == 0) return false;
    if (got < 0) return errno == EAGAIN;
    c->in_length += got;
    size_t at = 0;
    double read_at = now();
    while (c->answered < c->waiting) {
        long length = answer_length(w, c, &c->asked[c->answered], c->in + at, c->in_length - at);
        if (length < 0) {
            fprintf(stderr, "load: answered %.*s\n", (int)(c->in_length - at < 80 ? c->in_length - at : 80), c->in + at);
            return false;
        }
        if (length == 0) break;
        at += length;
        c->answered++;
        w->requests++;
        note_latency(w, read_at - c->sent_at);
    }
    memmove(c->in, c->in + at, c->in_length - at);
    c->in_length -= at;
    return true;
}

static bool send_rest(struct connection *c) {
    while (c->out_sent < c->out_length) {
        ssize_t sent = send(c->fd, c->out + c->out_sent, c->out_length - c->out_sent, MSG_NOSIGNAL);
        if (sent < 0) return errno == EAGAIN;
        c->out_sent += sent;
    }
    return true;
}

static bool begin_pipeline(struct worker *w, struct connection *c) {
    if (!make_pipeline(w, c)) return true;
    c->sent_at = now();
    return send_rest(c);
}

// Sends what is due at a fixed rate, and says in how many seconds the next is.
static double send_due(struct worker *w, double each) {
    double time = now(), soonest = 0.1;
    for (int i = 0; i < w->count; i++) {
        struct connection *c = &connections[w->first + i];
        if (c->answered < c->waiting) continue;
        if (time >= c->next_at) {
            c->next_at += each;
            if (!begin_pipeline(w, c)) w->failed = true;
        } else if (c->next_at - time < soonest) {
            soonest = c->next_at - time;
        }
    }
    return soonest;
}

static bool is_done(const struct worker *w, int left) {
    if (is_over || w->failed || left == 0) return true;
    return options.reads && w->keys_asked >= (uint64_t)(options.reads / options.threads);
}

static void *run_worker(void *given) {
    struct worker *w = given;
    int poll = epoll_create1(0), left = w->count;
    if (poll < 0) die("epoll");
    double each = options.rate > 0 ? options.connections * options.pipeline / options.rate : 0, begin = now();
    for (int i = 0; i < w->count; i++) {
        struct connection *c = &connections[w->first + i];
        struct epoll_event e = {.events = EPOLLIN, .data.ptr = c};
        if (epoll_ctl(poll, EPOLL_CTL_ADD, c->fd, &e)) die("epoll_ctl");
        c->next_at = begin + each * (w->first + i) / options.connections;
        if (each == 0 && !begin_pipeline(w, c)) w->failed = true;
        if (c->waiting == 0 && options.fill) left--;
    }
    struct epoll_event events[256];
    while (!is_done(w, left)) {
        double wait = each > 0 ? send_due(w, each) : 0.1;
        struct timespec at_most = {0, (long)(wait * 1e9)};
        int n = epoll_pwait2(poll, events, 256, &at_most, NULL);
        for (int i = 0; i < n && !w->failed; i++) {
            struct connection *c = events[i].data.ptr;
            if (!read_answers(w, c) || !send_rest(c)) w->failed = true;
            if (w->failed || c->answered < c->waiting || each > 0) continue;
            if (!begin_pipeline(w, c)) w->failed = true;
            if (c->waiting == 0) left--;
        }
    }
    close(poll);
    return NULL;
}

static int connect_to(void) {
    struct sockaddr_in to = {.sin_family = AF_INET, .sin_port = htons(options.port)};
    if (inet_pton(AF_INET, options.host, &to.sin_addr) != 1) die("host");
    int fd = socket(AF_INET, SOCK_STREAM, 0), one = 1;
    if (fd < 0 || connect(fd, (struct sockaddr *)&to, sizeof to)) die("connect");
    setsockopt(fd, IPPROTO_TCP, TCP_NODELAY, &one, sizeof one);
    if (fcntl(fd, F_SETFL, O_NONBLOCK)) die("fcntl");
    return fd;
}

static void open_connections(void) {
    connections = calloc(options.connections, sizeof *connections);
    size_t request = 64 + (size_t)options.many * LONGEST_KEY + options.value;
    size_t answer = 64 + (size_t)options.many * (64 + options.value);
    int each = (options.keys + options.connections - 1) / options.connections;
    for (int i = 0; i < options.connections; i++) {
        struct connection *c = &connections[i];
        c->fd = connect_to();
        // (a pipeline, and all that was missed in the one before)
        c->asked = calloc(2 * options.pipeline, sizeof *c->asked);
        c->missed = calloc(options.pipeline, sizeof *c->missed);
        c->out = malloc(2 * request * options.pipeline);
        c->in_room = answer * options.pipeline + 65536;
        c->in = malloc(c->in_room);
        c->next_fill = i * each;
        c->end_fill = (i + 1) * each < options.keys ? (i + 1) * each : options.keys;
    }
}

static void make_zipf(void) {
    zipf_sums = malloc(options.keys * sizeof *zipf_sums);
    double sum = 0;
    for (int i = 0; i < options.keys; i++) zipf_sums[i] = sum += pow(i + 1, -options.zipf);
}

static int by_size(const void *a, const void *b) {
    uint32_t x = *(const uint32_t *)a, y = *(const uint32_t *)b;
    return (x > y) - (x < y);
}

static int number(const char *word, const char *text, int least, int most) {
    char *end;
    long n = text ? strtol(text, &end, 10) : 0;
    if (!text || *end || n < least || n > most) {
        fprintf(stderr, "load: %s takes a number from %d to %d\n", word, least, most);
        exit(2);
    }
    return n;
}

static double fraction(const char *word, const char *text, double most) {
    double n = text ? atof(text) : 0;
    if (n >= 0.01 && n <= most) return n;
    fprintf(stderr, "load: %s takes a number from 0.01 to %.0f\n", word, most);
    exit(2);
}

static void read_words(int count, char **words) {
    if (count < 3) {
        fprintf(stderr, "load: HOST PORT, and then the words that the head of load.c lists\n");
        exit(2);
    }
    options.host = words[1];
    options.port = number("PORT", words[2], 1, 65535);
    for (int i = 3; i < count; i++) {
        const char *word = words[i], *next = words[i + 1];
        if (!strcmp(word, "--fill")) options.fill = true;
        else if (!strcmp(word, "--through")) options.through = true;
        else if (!strcmp(word, "--ttls")) options.ttls = true;
        else if (!strcmp(word, "--long-ttls")) options.long_ttls = true;
        else if (!strcmp(word, "--zipf")) options.zipf = fraction(word, next, 10), i++;
        else if (!strcmp(word, "--connections")) options.connections = number(word, next, 1, 20000), i++;
        else if (!strcmp(word, "--threads")) options.threads = number(word, next, 1, 64), i++;
        else if (!strcmp(word, "--pipeline")) options.pipeline = number(word, next, 1, 10000), i++;
        else if (!strcmp(word, "--seconds")) options.seconds = fraction(word, next, 86400), i++;
        else if (!strcmp(word, "--reads")) options.reads = number(word, next, 1, 2000000000), i++;
        else if (!strcmp(word, "--keys")) options.keys = number(word, next, 1, 9999999), i++;
        else if (!strcmp(word, "--first")) options.first = number(word, next, 0, 9999999), i++;
        else if (!strcmp(word, "--value")) options.value = number(word, next, 0, 1048576), i++;
        else if (!strcmp(word, "--sets")) options.sets = number(word, next, 0, 100), i++;
        else if (!strcmp(word, "--deletes")) options.deletes = number(word, next, 0, 100), i++;
        else if (!strcmp(word, "--many")) options.many = number(word, next, 1, 100), i++;
        else if (!strcmp(word, "--seed")) options.seed = number(word, next, 0, 2000000000), i++;
        else if (!strcmp(word, "--rate")) options.rate = number(word, next, 1, 100000000), i++;
        else {
            fprintf(stderr, "load: unknown word %s\n", word);
            exit(2);
        }
    }
    if (options.threads > options.connections) options.threads = options.connections;
}

// The figures of all threads in one line.
static void report(struct worker *workers, double seconds) {
    uint64_t requests = 0, hits = 0, keys = 0, kept = 0, refused = 0;
    uint32_t *all = malloc((size_t)options.threads * MOST_LATENCIES * sizeof *all);
    for (int i = 0; i < options.threads; i++) {
        struct worker *w = &workers[i];
        requests += w->requests, hits += w->hits, keys += w->keys_asked, refused += w->refused;
        uint64_t n = w->latencies_seen < MOST_LATENCIES ? w->latencies_seen : MOST_LATENCIES;
        memcpy(all + kept, w->latencies, n * sizeof *all);
        kept += n;
    }
    qsort(all, kept, sizeof *all, by_size);
#define PERCENTILE(p) (kept ? all[(uint64_t)((kept - 1) * (p))] : 0)
    struct rusage used;
    getrusage(RUSAGE_SELF, &used);
    double ran = used.ru_utime.tv_sec + used.ru_stime.tv_sec + (used.ru_utime.tv_usec + used.ru_stime.tv_usec) / 1e6;
    printf("requests=%lu seconds=%.3f rate=%.0f hits=%lu misses=%lu refused=%lu p50=%u p99=%u p999=%u most=%u busy=%.2f\n",
           (unsigned long)requests, seconds, requests / seconds, (unsigned long)hits, (unsigned long)(keys - hits),
           (unsigned long)refused, PERCENTILE(0.5), PERCENTILE(0.99), PERCENTILE(0.999), PERCENTILE(1.0),
           ran / seconds / options.threads);
}

int main(int count, char **words) {
    read_words(count, words);
    if (options.zipf > 0) make_zipf();
    make_values();
    make_tails();
    open_connections();
    struct worker *workers = calloc(options.threads, sizeof *workers);
    double began = now();
    for (int i = 0; i < options.threads; i++) {
        struct worker *w = &workers[i];
        w->first = options.connections * i / options.threads;
        w->count = options.connections * (i + 1) / options.threads - w->first;
        w->seed = 1000 * (uint64_t)options.seed + i;
        w->latencies = malloc(MOST_LATENCIES * sizeof *w->latencies);
        if (pthread_create(&w->thread, NULL, run_worker, w)) die("thread");
    }
    if (!options.fill && !options.reads) {
        usleep(options.seconds * 1e6);
        is_over = true;
    }
    bool failed = false;
    for (int i = 0; i < options.threads; i++) {
        pthread_join(workers[i].thread, NULL);
        failed |= workers[i].failed;
    }
    report(workers, now() - began);
    if (failed) fprintf(stderr, "load: the server went away, or gave an answer that it must not\n");
    return failed;
}
