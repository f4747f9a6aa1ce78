/* Asks an svn:// server as fast as it answers, in as many sessions as are wanted, and says how fast that was.

       load PORT NAME PASSWORD MEASURE WORD..

   The server listens at 127.0.0.1, and user0 to user15 have the password. Each session has a thread, sends one command and
   waits for its answer; it acknowledges at once what comes. Texts are sent and wanted as svndiff 0. A line is printed for each
   measure; `bench/serve` says which there are, compiles this file and reads the lines. */

#define _GNU_SOURCE
#include <arpa/inet.h>
#include <math.h>
#include <netinet/tcp.h>
#include <pthread.h>
#include <stdarg.h>
#include <stdatomic.h>
#include <stdint.h>
#include <stdio.h>
#include <stdlib.h>
#include <string.h>
#include <sys/time.h>
#include <time.h>
#include <unistd.h>

enum { SESSIONS = 16, KEPT = 1 << 16, OF_A_DIRECTORY = 100 };

static int port;
static const char *name, *password;
static atomic_int stopped;

static _Noreturn void fail(const char *format, ...) {
    va_list words;
    va_start(words, format);
    fputs("load: ", stderr);
    vfprintf(stderr, format, words);
    fputc('\n', stderr);
    exit(1);
}

static double now(void) {
    struct timespec moment;
    clock_gettime(CLOCK_MONOTONIC, &moment);
    return moment.tv_sec + moment.tv_nsec / 1e9;
}

/* MD5 and its keyed digest (RFC 1321, RFC 2104) */

static void md5(const uint8_t *text, size_t size, uint8_t *digest) {
    static const int turns[4][4] = {{7, 12, 17, 22}, {5, 9, 14, 20}, {4, 11, 16, 23}, {6, 10, 15, 21}};
    uint32_t state[4] = {0x67452301, 0xefcdab89, 0x98badcfe, 0x10325476};
    size_t padded = (size + 8) / 64 * 64 + 64;
    uint8_t *bytes = calloc(padded, 1);
    memcpy(bytes, text, size);
    bytes[size] = 0x80;
    for (int i = 0; i < 8; i++) bytes[padded - 8 + i] = (uint8_t)(size * 8 >> (8 * i));
    for (size_t block = 0; block < padded; block += 64) {
        uint32_t words[16], a = state[0], b = state[1], c = state[2], d = state[3];
        for (int i = 0; i < 16; i++) {
            const uint8_t *at = bytes + block + 4 * i;
            words[i] = at[0] | at[1] << 8 | at[2] << 16 | (uint32_t)at[3] << 24;
        }
        for (int i = 0; i < 64; i++) {
            int round = i / 16;
            uint32_t f = round == 0 ? (b & c) | (~b & d) : round == 1 ? (d & b) | (~d & c) : round == 2 ? b ^ c ^ d : c ^ (b | ~d);
            int at = round == 0 ? i : round == 1 ? (5 * i + 1) % 16 : round == 2 ? (3 * i + 5) % 16 : 7 * i % 16;
            uint32_t sum = f + a + (uint32_t)(fabs(sin(i + 1)) * 4294967296.0) + words[at];
            int turn = turns[round][i % 4];
            a = d;
            d = c;
            c = b;
            b += sum << turn | sum >> (32 - turn);
        }
        state[0] += a, state[1] += b, state[2] += c, state[3] += d;
    }
    for (int i = 0; i < 16; i++) digest[i] = (uint8_t)(state[i / 4] >> (8 * (i % 4)));
    free(bytes);
}

static void keyed_md5(const char *key, const uint8_t *text, size_t size, char *hex) {
    uint8_t inner[64 + 1024] = {0}, outer[64 + 16] = {0}, digest[16];
    if (strlen(key) > 64 || size > 1024) fail("a password or a challenge is too long");
    memcpy(inner, key, strlen(key));
    memcpy(outer, key, strlen(key));
    for (int i = 0; i < 64; i++) inner[i] ^= 0x36, outer[i] ^= 0x5c;
    memcpy(inner + 64, text, size);
    md5(inner, 64 + size, outer + 64);
    md5(outer, sizeof outer, digest);
    for (int i = 0; i < 16; i++) sprintf(hex + 2 * i, "%02x", digest[i]);
}

/* Bytes to be sent */

typedef struct {
    char *bytes;
    size_t size, room;
} Text;

static void add(Text *text, const void *bytes, size_t size) {
    if (text->size + size > text->room) {
        text->room = (text->size + size) * 2;
        text->bytes = realloc(text->bytes, text->room);
    }
    memcpy(text->bytes + text->size, bytes, size);
    text->size += size;
}

__attribute__((format(printf, 2, 3))) static void say(Text *text, const char *format, ...) {
    char line[4096];
    va_list words;
    va_start(words, format);
    add(text, line, vsnprintf(line, sizeof line, format, words));
}

static size_t number(uint8_t *at, uint64_t value) {
    int size = 1;
    while (value >> (7 * size)) size++;
    for (int i = 0; i < size; i++) at[i] = (value >> (7 * (size - 1 - i)) & 127) | (i + 1 < size ? 128 : 0);
    return size;
}

/* the commands by which an open file has this text */
static void put(Text *text, const char *token, const char *content, size_t size) {
    int width = strlen(token);
    say(text, "( apply-textdelta ( %d:%s ( ) ) ) ( textdelta-chunk ( %d:%s 4:", width, token, width, token);
    add(text, "SVN\0 ) ) ", 9);
    for (size_t at = 0; at < size; at += 65536) {
        size_t count = size - at < 65536 ? size - at : 65536;
        uint8_t head[32], instruction[8] = {0x80};
        size_t length = 1 + number(instruction + 1, count), used = 0;
        head[used++] = 0;
        head[used++] = 0;
        used += number(head + used, count);
        used += number(head + used, length);
        used += number(head + used, count);
        say(text, "( textdelta-chunk ( %d:%s %zu:", width, token, used + length + count);
        add(text, head, used);
        add(text, instruction, length);
        add(text, content + at, count);
        add(text, " ) ) ", 5);
    }
    say(text, "( textdelta-end ( %d:%s ) ) ( close-file ( %d:%s ( ) ) ) ", width, token, width, token);
}

static uint64_t next(uint64_t *seed) {
    *seed ^= *seed << 13, *seed ^= *seed >> 7, *seed ^= *seed << 17;
    return *seed;
}

/* letters that do not come again */
static void fill(char *content, size_t size, uint64_t seed) {
    seed = seed * 0x9e3779b97f4a7c15u + 1;
    for (size_t i = 0; i < size; i++) content[i] = i % 64 == 63 ? '\n' : 'a' + next(&seed) % 26;
}

/* Sessions */

typedef struct {
    int socket, user;
    char *bytes;
    size_t at, end;
    /* the last item, up to KEPT bytes of it */
    char *item;
    size_t size;
    uint64_t received;
} Session;

static void receive(Session *session) {
    static const int one = 1;
    setsockopt(session->socket, IPPROTO_TCP, TCP_QUICKACK, &one, sizeof one);
    ssize_t count = read(session->socket, session->bytes, KEPT);
    if (count <= 0) fail("the server has gone behind %.*s", (int)session->size, session->item);
    session->at = 0;
    session->end = count;
    session->received += count;
}

static char byte(Session *session) {
    if (session->at == session->end) receive(session);
    char found = session->bytes[session->at++];
    if (session->size < KEPT) session->item[session->size++] = found;
    return found;
}

/* reads the next item. It is ended by a 0 */
static void hear(Session *session) {
    int depth = 0;
    session->size = 0;
    do {
        char first = byte(session);
        uint64_t value = 0;
        int is_number = first >= '0' && first <= '9';
        for (; first != ' ' && first != '\n' && first != ':'; first = byte(session)) {
            depth += (first == '(') - (first == ')');
            value = value * 10 + first - '0';
        }
        if (!is_number || first != ':') continue;
        while (value) {
            if (session->at == session->end) receive(session);
            size_t count = session->end - session->at < value ? session->end - session->at : value;
            size_t room = KEPT - session->size < count ? KEPT - session->size : count;
            memcpy(session->item + session->size, session->bytes + session->at, room);
            session->size += room;
            session->at += count;
            value -= count;
        }
        byte(session);
    } while (depth);
    session->item[session->size] = 0;
}

static void wanted(Session *session, const char *begins) {
    hear(session);
    if (strncmp(session->item, begins, strlen(begins))) fail("user%d is told %s", session->user, session->item);
}

static void send_all(Session *session, const char *bytes, size_t size) {
    while (size) {
        ssize_t count = write(session->socket, bytes, size);
        if (count <= 0) fail("the server takes nothing");
        bytes += count;
        size -= count;
    }
}

/* sends a command, whose answer comes behind what is told of the login */
static void ask(Session *session, const char *command) {
    send_all(session, command, strlen(command));
    wanted(session, "( success ( ( ) ");
    wanted(session, "( success ");
}

static Session *begin(int user) {
    static const int one = 1;
    static const struct timeval patience = {.tv_sec = 120};
    Session *session = calloc(1, sizeof *session);
    struct sockaddr_in address = {.sin_family = AF_INET, .sin_port = htons(port), .sin_addr.s_addr = htonl(INADDR_LOOPBACK)};
    session->user = user;
    session->bytes = malloc(KEPT);
    session->item = malloc(KEPT + 1);
    session->socket = socket(AF_INET, SOCK_STREAM, 0);
    if (connect(session->socket, (struct sockaddr *)&address, sizeof address)) fail("nothing listens");
    setsockopt(session->socket, IPPROTO_TCP, TCP_NODELAY, &one, sizeof one);
    setsockopt(session->socket, SOL_SOCKET, SO_RCVTIMEO, &patience, sizeof patience);
    Text text = {0};
    char url[256], hex[33];
    sprintf(url, "svn://127.0.0.1:%d/%s", port, name);
    wanted(session, "( success ");
    say(&text, "( 2 ( edit-pipeline ) %zu:%s ) ( CRAM-MD5 ( ) ) ", strlen(url), url);
    send_all(session, text.bytes, text.size);
    wanted(session, "( success ");
    wanted(session, "( step ");
    char *challenge = strchr(session->item, '<'), *end = strrchr(session->item, '>');
    keyed_md5(password, (uint8_t *)challenge, end + 1 - challenge, hex);
    text.size = 0;
    sprintf(url, "user%d %s", user, hex);
    say(&text, "%zu:%s ", strlen(url), url);
    send_all(session, text.bytes, text.size);
    wanted(session, "( success ");
    wanted(session, "( success ");
    free(text.bytes);
    return session;
}

static void end(Session *session) {
    close(session->socket);
    free(session->bytes);
    free(session->item);
    free(session);
}

static long latest(Session *session) {
    ask(session, "( get-latest-rev ( ) ) ");
    return atol(session->item + strlen("( success ( "));
}

/* makes a revision by an edit, which the text has up to its end */
static void commit(Session *session, Text *edit) {
    ask(session, "( commit ( 1:m ( ) false ) ) ");
    say(edit, "( close-edit ( ) ) ");
    send_all(session, edit->bytes, edit->size);
    wanted(session, "( success ");
    wanted(session, "( success ( ( ) ");
    wanted(session, "( ");
    if (strstr(session->item, "failure")) fail("a commit is answered by %s", session->item);
    edit->size = 0;
}

static void file_path(char *path, const char *tree, long file) {
    sprintf(path, "%s/d%ld/f%ld", tree, file / OF_A_DIRECTORY, file);
}

/* one of many files of a tree is changed, by each session in directories of its own */
static void change(Session *session, long step, long files) {
    long directories = files / OF_A_DIRECTORY / SESSIONS;
    if (directories == 0) fail("the tree is too small");
    long file = (session->user * directories + step / OF_A_DIRECTORY % directories) * OF_A_DIRECTORY + step % OF_A_DIRECTORY;
    char directory[64], path[64], content[100];
    Text edit = {0};
    file_path(path, "tree", file);
    sprintf(directory, "tree/d%ld", file / OF_A_DIRECTORY);
    fill(content, sizeof content, (uint64_t)now() * 1000003 + step * SESSIONS + session->user);
    say(&edit, "( open-root ( ( ) 2:d0 ) ) ( open-dir ( 4:tree 2:d0 2:d1 ( ) ) ) ");
    say(&edit, "( open-dir ( %zu:%s 2:d1 2:d2 ( ) ) ) ", strlen(directory), directory);
    say(&edit, "( open-file ( %zu:%s 2:d2 2:c1 ( ) ) ) ", strlen(path), path);
    put(&edit, "c1", content, sizeof content);
    say(&edit, "( close-dir ( 2:d2 ) ) ( close-dir ( 2:d1 ) ) ( close-dir ( 2:d0 ) ) ");
    commit(session, &edit);
    free(edit.bytes);
}

static void look(Session *session, long step, long files) {
    char path[64], command[128];
    file_path(path, "tree", (step * 31 + session->user * 977) % files);
    sprintf(command, "( check-path ( %zu:%s ( ) ) ) ", strlen(path), path);
    ask(session, command);
}

static void lock(Session *session, long step, long files) {
    char path[64], command[256];
    file_path(path, "tree", session->user * (files / SESSIONS) + step % (files / SESSIONS));
    sprintf(command, "( lock ( %zu:%s ( ) false ( ) ) ) ", strlen(path), path);
    ask(session, command);
    char *token = strstr(session->item, "opaquelocktoken:");
    *strchr(token, ' ') = 0;
    char *kept = strdup(token);
    sprintf(command, "( unlock ( %zu:%s ( %zu:%s ) false ) ) ", strlen(path), path, strlen(kept), kept);
    free(kept);
    ask(session, command);
}

/* a directory with files of a size, in directories of a hundred, is added. Gives the moment at which that began */
static double import(Session *session, const char *tree, long files, size_t size) {
    Text edit = {0};
    char *content = malloc(size + 1), path[64], token[32];
    say(&edit, "( open-root ( ( ) 2:d0 ) ) ( add-dir ( %zu:%s 2:d0 2:d1 ( ) ) ) ", strlen(tree), tree);
    for (long file = 0; file < files; file++) {
        if (file % OF_A_DIRECTORY == 0) {
            sprintf(path, "%s/d%ld", tree, file / OF_A_DIRECTORY);
            if (file) say(&edit, "( close-dir ( 2:d2 ) ) ");
            say(&edit, "( add-dir ( %zu:%s 2:d1 2:d2 ( ) ) ) ", strlen(path), path);
        }
        file_path(path, tree, file);
        sprintf(token, "c%ld", file);
        say(&edit, "( add-file ( %zu:%s 2:d2 %zu:%s ( ) ) ) ", strlen(path), path, strlen(token), token);
        fill(content, size, file + 1);
        put(&edit, token, content, size);
    }
    say(&edit, "( close-dir ( 2:d2 ) ) ( close-dir ( 2:d1 ) ) ( close-dir ( 2:d0 ) ) ");
    double before = now();
    commit(session, &edit);
    free(content);
    free(edit.bytes);
    return before;
}

/* what there is of the repository is told as an update from nothing. Gives the entries */
static long checkout(Session *session, const char *tree) {
    char command[256];
    long entries = 0;
    sprintf(command, "( update ( ( ) %zu:%s true ) ) ( set-path ( 0: %ld true ) ) ( finish-report ( ) ) ", strlen(tree), tree, latest(session));
    send_all(session, command, strlen(command));
    wanted(session, "( success ");
    wanted(session, "( success ");
    do {
        hear(session);
        entries += !strncmp(session->item, "( add-", 6);
        if (!strncmp(session->item, "( failure", 9)) fail("an update is answered by %s", session->item);
    } while (strncmp(session->item, "( close-edit", 12));
    send_all(session, "( success ( ) ) ", 16);
    wanted(session, "( success ");
    return entries;
}

static void get_file(Session *session, const char *path, size_t size) {
    char command[256];
    uint64_t before = session->received;
    sprintf(command, "( get-file ( %zu:%s ( ) false true ) ) ", strlen(path), path);
    ask(session, command);
    do hear(session);
    while (strncmp(session->item, "0: ", 3));
    wanted(session, "( success ");
    if (session->received - before < size) fail("%s is shorter", path);
}

static void read_log(Session *session, long revisions) {
    char command[256];
    long end = latest(session), entries = 0;
    sprintf(command, "( log ( ( 0: ) ( %ld ) ( %ld ) true false ) ) ", end, end - revisions + 1);
    send_all(session, command, strlen(command));
    wanted(session, "( success ");
    for (hear(session); strncmp(session->item, "done", 4); hear(session)) entries++;
    wanted(session, "( success ");
    if (entries != revisions) fail("a log has %ld entries", entries);
}

/* Sessions at once */

typedef void Step(Session *, long, long);

typedef struct {
    Session *session;
    Step *step;
    long files, count;
    double *seconds;
    long done, room;
    pthread_t thread;
} Worker;

static pthread_barrier_t ready;

static void *work(void *given) {
    Worker *worker = given;
    Session *session = worker->session;
    worker->step(session, 0, worker->files);
    pthread_barrier_wait(&ready);
    for (long step = 1; !stopped && (worker->count == 0 || worker->done < worker->count); step++) {
        double before = now();
        worker->step(session, step, worker->files);
        if (worker->done == worker->room) {
            worker->room = worker->room * 2 + 1024;
            worker->seconds = realloc(worker->seconds, worker->room * sizeof(double));
        }
        worker->seconds[worker->done++] = now() - before;
    }
    end(session);
    return NULL;
}

static void latest_step(Session *session, long step, long files) {
    (void)step, (void)files;
    latest(session);
}

/* all that clients do, in turn */
static void mixed_step(Session *session, long step, long files) {
    char path[64];
    switch ((step + session->user) % 8) {
    case 0:
        return change(session, step, files);
    case 1:
        return lock(session, step, files);
    case 2:
        return read_log(session, 1);
    case 3:
        file_path(path, "tree", step % files);
        return get_file(session, path, 0);
    case 4:
        if (step % 256 < 8) checkout(session, "tree");
        return;
    default:
        return look(session, step, files);
    }
}

static int in_order(const void *left, const void *right) {
    double difference = *(const double *)left - *(const double *)right;
    return (difference > 0) - (difference < 0);
}

static Step *step_of(const char *word) {
    static const struct { const char *word; Step *step; } steps[] = {
        {"latest", latest_step}, {"look", look}, {"commit", change}, {"lock", lock}, {"mixed", mixed_step},
    };
    for (size_t i = 0; i < sizeof steps / sizeof *steps; i++)
        if (!strcmp(word, steps[i].word)) return steps[i].step;
    fail("nobody knows %s", word);
}

/* so many sessions do one thing for some seconds, or each so many times, beside so many others that commit. Says how often it
   was done in a second, the median and the 99th percentile of its seconds, how often it was done, and how often the others
   committed in a second */
static void sessions(Step *step, int count, double seconds, long times, int others, long files) {
    Worker workers[SESSIONS] = {0};
    int all = count + others;
    if (all > SESSIONS) fail("at most %d sessions", SESSIONS);
    pthread_barrier_init(&ready, NULL, all + 1);
    for (int i = 0; i < all; i++) {
        /* one after another: svnserve leaves some waiting that come at once */
        workers[i] = (Worker){.session = begin(i), .step = i < count ? step : change, .files = files, .count = i < count ? times : 0};
    }
    for (int i = 0; i < all; i++) {
        if (pthread_create(&workers[i].thread, NULL, work, &workers[i])) fail("no thread");
    }
    pthread_barrier_wait(&ready);
    double before = now();
    if (times == 0) {
        usleep(seconds * 1e6);
        stopped = 1;
    }
    for (int i = 0; i < count; i++) pthread_join(workers[i].thread, NULL);
    stopped = 1;
    seconds = now() - before;
    for (int i = count; i < all; i++) pthread_join(workers[i].thread, NULL);
    long done = 0, committed = 0;
    for (int i = 0; i < all; i++) *(i < count ? &done : &committed) += workers[i].done;
    double *sorted = malloc((done + 1) * sizeof(double));
    for (int i = 0, at = 0; i < count; at += workers[i++].done) memcpy(sorted + at, workers[i].seconds, workers[i].done * sizeof(double));
    qsort(sorted, done, sizeof(double), in_order);
    printf("%.3f %.9f %.9f %ld %.3f\n", done / seconds, done ? sorted[done / 2] : 0, done ? sorted[done * 99 / 100] : 0, done, committed / seconds);
}

int main(int count, char **words) {
    if (count < 5) fail("load PORT NAME PASSWORD MEASURE WORD..");
    port = atoi(words[1]);
    name = words[2];
    password = words[3];
    const char *measure = words[4];
    words += 5;
    count -= 5;
    if (!strcmp(measure, "sessions") && count == 6) {
        /* WHAT COUNT SECONDS TIMES OTHERS FILES */
        sessions(step_of(words[0]), atoi(words[1]), atof(words[2]), atol(words[3]), atoi(words[4]), atol(words[5]));
        return 0;
    }
    Session *session = begin(0);
    if (!strcmp(measure, "revisions")) {
        printf("%ld\n", latest(session));
        return 0;
    }
    double before = now();
    if (!strcmp(measure, "import") && count == 3) {
        /* TREE FILES SIZE */
        before = import(session, words[0], atol(words[1]), atol(words[2]));
    } else if (!strcmp(measure, "checkout") && count == 2) {
        /* TREE ENTRIES */
        long entries = checkout(session, words[0]);
        if (entries != atol(words[1])) fail("%s has %ld entries", words[0], entries);
    } else if (!strcmp(measure, "put") && count == 2) {
        /* FILE SIZE */
        Text edit = {0};
        char *content = malloc(atol(words[1]));
        fill(content, atol(words[1]), 7);
        say(&edit, "( open-root ( ( ) 2:d0 ) ) ( add-file ( %zu:%s 2:d0 2:c1 ( ) ) ) ", strlen(words[0]), words[0]);
        put(&edit, "c1", content, atol(words[1]));
        say(&edit, "( close-dir ( 2:d0 ) ) ");
        before = now();
        commit(session, &edit);
    } else if (!strcmp(measure, "get") && count == 2) {
        get_file(session, words[0], atol(words[1]));
    } else if (!strcmp(measure, "log") && count == 1) {
        read_log(session, atol(words[0]));
    } else {
        fail("nobody knows %s of %d words", measure, count);
    }
    printf("%.9f\n", now() - before);
    return 0;
}
