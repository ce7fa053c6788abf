// plain DATABASE PAIRS [kept | one NAME]: what a session answers to a change of all services and to
// so many pairs of its undo and redo, by a plain loop over services and pairs: no plan, no state, no
// events, nothing kept. With `kept` each move is made by a thread of its own, which takes each service
// and ends it under a lock, and keeps where each service stands and what happened, as a session does.
// With `one` all are up but NAME and what needs it, and it raises NAME and lowers it again with what
// needs it, so many times: it follows what is reached with a stack, and looks at all services once,
// eight at a time, to write what moved. changes.sh and lines.sh compare the time and the instructions,
// and what it writes, with a session's.
#define _GNU_SOURCE
#include <pthread.h>
#include <stdint.h>
#include <stdio.h>
#include <stdlib.h>
#include <string.h>

enum { MANY = 4096, PAIRS = 1 << 20 };

static char *names[MANY];
static int count, first_need[MANY + 1], need[PAIRS], first_user[MANY + 1], user[PAIRS];

// The number of a name, of those that ascend.
static int find(const char *name) {
    int low = 0, high = count;
    while (low < high) {
        int middle = (low + high) / 2, order = strcmp(names[middle], name);
        if (order == 0) return middle;
        if (order < 0) low = middle + 1;
        else high = middle;
    }
    exit(1);
}

static char *text_of(const char *path) {
    FILE *file = fopen(path, "rb");
    if (!file || fseek(file, 0, SEEK_END)) exit(1);
    long length = ftell(file);
    char *text = malloc(length + 1);
    rewind(file);
    if (!text || fread(text, 1, length, file) != (size_t)length) exit(1);
    text[length] = 0;
    fclose(file);
    return text;
}

// Reads names first, since a service may need one that comes later.
static void read_graph(const char *path) {
    static char *needs[MANY];
    char *word, *line, *rest = text_of(path);
    while ((line = strsep(&rest, "\n"))) {
        if (!strncmp(line, "service ", 8) && count < MANY) {
            names[count] = line + 8;
            line[8 + strcspn(line + 8, " ")] = 0;
        }
        if (!strncmp(line, "needs", 5)) needs[count++] = line + 5;
    }
    for (int s = 0, pairs = 0; s < count; s++) {
        while ((word = strsep(&needs[s], " ")))
            if (*word && pairs < PAIRS) first_user[find(word)]++, need[pairs++] = find(word);
        first_need[s + 1] = pairs;
    }
    for (int s = 0, sum = 0; s <= count; s++) sum += first_user[s], first_user[s] = sum;
    for (int s = count; s-- > 0;)
        for (int p = first_need[s]; p < first_need[s + 1]; p++) user[--first_user[need[p]]] = s;
}

enum standing { STILL, UNDER_WAY, MOVED };

struct event {
    enum standing standing;
    int service;
};

// A move that is under way: what waits for how many, what may go, what moved, and what happened.
struct run {
    const int *after, *next;
    int waits[MANY], queue[MANY], length, happened, keeps;
    enum standing standings[MANY];
    struct event *events;
    pthread_mutex_t lock;
};

static void note(struct run *run, int service, enum standing standing) {
    run->standings[service] = standing;
    if (run->keeps) run->events[run->happened++] = (struct event){standing, service};
}

// The next service that may go, or -1 where all have moved.
static int take(struct run *run) {
    if (!run->length) return -1;
    int service = run->queue[--run->length];
    if (run->keeps) note(run, service, UNDER_WAY);
    return service;
}

static void end(struct run *run, int service) {
    note(run, service, MOVED);
    for (int p = run->after[service]; p < run->after[service + 1]; p++)
        if (!--run->waits[run->next[p]]) run->queue[run->length++] = run->next[p];
}

static void *work(void *given) {
    struct run *run = given;
    for (;;) {
        pthread_mutex_lock(&run->lock);
        int service = take(run);
        pthread_mutex_unlock(&run->lock);
        if (service < 0) return NULL;
        pthread_mutex_lock(&run->lock);
        end(run, service);
        pthread_mutex_unlock(&run->lock);
    }
}

// What was kept is to be so: each service taken once, and ended once behind that.
static void check_kept(const struct run *run) {
    static enum standing seen[MANY];
    memset(seen, 0, sizeof seen);
    if (run->happened != 2 * count) exit(1);
    for (int at = 0; at < run->happened; at++) {
        struct event event = run->events[at];
        if (event.standing != seen[event.service] + 1) exit(1);
        seen[event.service] = event.standing;
    }
}

static void move_kept(struct run *run) {
    pthread_t thread;
    run->events = malloc(2 * MANY * sizeof *run->events);
    if (!run->events || pthread_create(&thread, NULL, work, run)) exit(1);
    pthread_join(thread, NULL);
    check_kept(run);
    free(run->events);
}

// Moves each service after those that it waits for, and tells all that were moved.
static void move(const char *word, int keeps, const int *before, const int *after, const int *next) {
    static struct run run = {.lock = PTHREAD_MUTEX_INITIALIZER};
    run.after = after;
    run.next = next;
    run.keeps = keeps;
    run.length = run.happened = 0;
    for (int s = count; s-- > 0;) {
        run.standings[s] = STILL;
        run.waits[s] = before[s + 1] - before[s];
        if (!run.waits[s]) run.queue[run.length++] = s;
    }
    if (keeps) move_kept(&run);
    else
        for (int s; (s = take(&run)) >= 0;) end(&run, s);
    fputs(word, stdout);
    for (int s = 0; s < count; s++)
        if (run.standings[s] == MOVED) putchar(' '), fputs(names[s], stdout);
    puts("\nok");
}

static char is_up[MANY], is_reached[MANY];

// Marks what a service reaches along lists, the service among it, and lists it.
static int reach(int service, const int *first, const int *list, int *reached) {
    int many = 0;
    memset(is_reached, 0, count);
    is_reached[service] = 1;
    reached[many++] = service;
    for (int at = 0; at < many; at++)
        for (int p = first[reached[at]]; p < first[reached[at] + 1]; p++)
            if (!is_reached[list[p]]) is_reached[list[p]] = 1, reached[many++] = list[p];
    return many;
}

// Brings a service up with all that it needs, or down with all that needs it, each of those that
// move after those that it waits for, and tells what moved.
static void turn(const char *word, int service, int up, const int *first, const int *list,
                 const int *after, const int *next) {
    static int reached[MANY], waits[MANY], queue[MANY];
    static char moved[MANY];
    int many = reach(service, first, list, reached), length = 0;
    memset(moved, 0, count);
    for (int at = 0; at < many; at++) {
        int s = reached[at];
        if (is_up[s] == up) continue;
        waits[s] = 0;
        for (int p = first[s]; p < first[s + 1]; p++) waits[s] += is_up[list[p]] != up;
        if (!waits[s]) queue[length++] = s;
    }
    while (length) {
        int s = queue[--length];
        is_up[s] = up;
        moved[s] = 1;
        for (int p = after[s]; p < after[s + 1]; p++)
            if (is_reached[next[p]] && is_up[next[p]] != up && !--waits[next[p]]) queue[length++] = next[p];
    }
    fputs(word, stdout);
    for (int at = 0; at < count; at += 8) {
        uint64_t eight;
        memcpy(&eight, moved + at, 8);
        for (int s = at; eight && s < at + 8; s++)
            if (moved[s]) putchar(' '), fputs(names[s], stdout);
    }
    puts("\nok");
}

static void turn_one(const char *name, int pairs) {
    int service = find(name);
    memset(is_up, 1, count);
    turn("lowered", service, 0, first_user, user, first_need, need);
    for (; pairs > 0; pairs--) {
        turn("raised", service, 1, first_need, need, first_user, user);
        turn("lowered", service, 0, first_user, user, first_need, need);
    }
}

int main(int words, char **word) {
    int keeps = words == 4 && !strcmp(word[3], "kept"), one = words == 5 && !strcmp(word[3], "one");
    if (words != 3 + keeps + 2 * one) return 2;
    read_graph(word[1]);
    if (one) {
        turn_one(word[4], atoi(word[2]));
        return 0;
    }
    move("raised", keeps, first_need, first_user, user);
    for (int pairs = atoi(word[2]); pairs > 0; pairs--) {
        move("lowered", keeps, first_user, first_need, need);
        move("raised", keeps, first_need, first_user, user);
    }
    return 0;
}
