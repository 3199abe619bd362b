/* Round trips over loopback: each of L links sends a line and waits for its answer before it sends the next, for some
 * seconds, all in one thread by poll. Prints the round trips and the seconds.
 * usage: load PORT LINKS SECONDS END KIND
 *   END is the text that ends an answer ('fics% ' of ficsd, a line feed of the echo server)
 *   KIND is 'echo' (no login), 'empty' (login, then empty lines), 'who' (login, and then the first link asks who is in
 *   the hall, and the others say nothing), 'moves' (login, and then each two links play games: only accepted moves are
 *   counted, and one line of each game is under way), 'counted' (the same until so many moves were answered as SECONDS
 *   says), or 'idle' (login, and then nothing for those seconds) */
#include <arpa/inet.h>
#include <limits.h>
#include <math.h>
#include <netinet/in.h>
#include <poll.h>
#include <stdio.h>
#include <stdlib.h>
#include <string.h>
#include <sys/socket.h>
#include <time.h>
#include <unistd.h>

enum { MOST = 512, ROOM = 65536, HALF_MOVES = 1000 };

struct peer {
    int link;
    char name[8];
    char heard[ROOM];
    size_t length;
};

static struct peer peers[MOST];

static void fail(const char *what)
{
    perror(what);
    exit(1);
}

static void say(struct peer *it, const char *text)
{
    size_t length = strlen(text);
    if (write(it->link, text, length) != (ssize_t)length) fail("write");
}

/* whether what was heard ends in this text; then it is forgotten */
static int ends_in(struct peer *it, const char *end)
{
    size_t length = strlen(end);
    return it->length >= length && !memcmp(it->heard + it->length - length, end, length);
}

static void hear(struct peer *it)
{
    if (it->length > ROOM / 2) {
        memmove(it->heard, it->heard + it->length - 1024, 1024);
        it->length = 1024;
    }
    ssize_t many = read(it->link, it->heard + it->length, ROOM - 1 - it->length);
    if (many <= 0) fail("read");
    it->length += many;
    it->heard[it->length] = 0;
}

static void await(struct peer *it, const char *end)
{
    while (!ends_in(it, end)) hear(it);
}

static void forget(struct peer *it)
{
    it->length = 0;
    it->heard[0] = 0;
}

static double now(void)
{
    struct timespec at;
    clock_gettime(CLOCK_MONOTONIC, &at);
    return at.tv_sec + at.tv_nsec / 1e9;
}

static void log_in(struct peer *it, int number)
{
    char line[16];
    await(it, "login: ");
    forget(it);
    /* a handle has letters alone */
    snprintf(it->name, sizeof it->name, "bench%c%c", 'a' + number / 26 % 26, 'a' + number % 26);
    snprintf(line, sizeof line, "%s\n", it->name);
    say(it, line);
    await(it, "fics% ");
    forget(it);
}

/* A game over and over: a challenge, its acceptance, knights out and home again, a resignation, and a line by which the
 * other player sees that. What comes at this step of it: who of the two says what, and what its answer has in it. */
static struct peer *step_of(struct peer *pair, int step, char *line, size_t room, const char **sign)
{
    static const char *const moves[] = {"g1f3\n", "g8f6\n", "f3g1\n", "f6g8\n"};
    static const char *const signs[] = {" N/g1-f3 ", " N/g8-f6 ", " N/f3-g1 ", " N/f6-g8 "};
    int half = step - 2;
    if (step == 0) {
        snprintf(line, room, "match %s 2 12 white\n", pair[1].name);
        *sign = "Ok.";
        return &pair[0];
    }
    if (half >= 0 && half < HALF_MOVES) {
        snprintf(line, room, "%s", moves[half % 4]);
        *sign = signs[half % 4];
        return &pair[half % 2];
    }
    snprintf(line, room, "%s", step == 1 ? "accept\n" : half == HALF_MOVES ? "resign\n" : "\n");
    *sign = step == 1 ? "Creating" : "resigns} 0-1";
    return &pair[half == HALF_MOVES ? 0 : 1];
}

/* plays by pairs until the time is over or so many moves were answered, and gives those that were */
static long play(struct pollfd *polls, int links, double last, long most)
{
    static int steps[MOST / 2];
    static const char *signs[MOST / 2];
    struct peer *says[MOST / 2];
    char line[64];
    long trips = 0;
    for (int i = 0; i < links / 2; i++) {
        says[i] = step_of(&peers[2 * i], 0, line, sizeof line, &signs[i]);
        say(says[i], line);
    }
    while (trips < most && now() < last) {
        if (poll(polls, links, 100) < 0) fail("poll");
        for (int i = 0; i < links; i++) {
            int at = i / 2;
            if (!(polls[i].revents & (POLLIN | POLLHUP))) continue;
            hear(&peers[i]);
            /* news of the other's moves come too, between the answers */
            if (&peers[i] != says[at] || !ends_in(&peers[i], "fics% ")) continue;
            if (strstr(peers[i].heard, "refused")) {
                fprintf(stderr, "load: step %d: %s\n", steps[at], peers[i].heard);
                exit(1);
            }
            if (!strstr(peers[i].heard, signs[at])) continue;
            if (steps[at] >= 2 && steps[at] < HALF_MOVES + 2) trips++;
            steps[at] = (steps[at] + 1) % (HALF_MOVES + 4);
            says[at] = step_of(&peers[2 * at], steps[at], line, sizeof line, &signs[at]);
            forget(says[at]);
            say(says[at], line);
        }
    }
    return trips;
}

int main(int count, char **words)
{
    if (count != 6) {
        fprintf(stderr, "usage: load PORT LINKS SECONDS END KIND\n");
        return 2;
    }
    int links = atoi(words[2]), rest = atoi(words[3]);
    const char *end = words[4], *kind = words[5];
    int echo = !strcmp(kind, "echo"), idle = !strcmp(kind, "idle"), moves = !strcmp(kind, "moves");
    int who = !strcmp(kind, "who"), counted = !strcmp(kind, "counted");
    const char *line = who ? "who\n" : "\n";
    static struct pollfd polls[MOST];
    struct sockaddr_in at = {.sin_family = AF_INET};
    at.sin_addr.s_addr = htonl(INADDR_LOOPBACK);
    at.sin_port = htons(atoi(words[1]));
    for (int i = 0; i < links; i++) {
        peers[i].link = socket(AF_INET, SOCK_STREAM, 0);
        if (connect(peers[i].link, (struct sockaddr *)&at, sizeof at)) fail("connect");
        if (!echo) log_in(&peers[i], i);
        polls[i].fd = peers[i].link;
        polls[i].events = POLLIN;
    }
    if (idle) {
        printf("ready\n");
        fflush(stdout);
        sleep(rest);
        return 0;
    }
    double start = now(), last = start + rest;
    long trips = 0;
    if (moves || counted) {
        trips = counted ? play(polls, links, HUGE_VAL, rest) : play(polls, links, last, LONG_MAX);
        printf("%ld %.3f\n", trips, now() - start);
        return 0;
    }
    for (int i = 0; i < (who ? 1 : links); i++) say(&peers[i], line);
    while (now() < last) {
        if (poll(polls, links, 100) < 0) fail("poll");
        for (int i = 0; i < links; i++) {
            if (!(polls[i].revents & (POLLIN | POLLHUP))) continue;
            hear(&peers[i]);
            if (!ends_in(&peers[i], end)) continue;
            trips++;
            forget(&peers[i]);
            say(&peers[i], line);
        }
    }
    printf("%ld %.3f\n", trips, now() - start);
    return 0;
}
