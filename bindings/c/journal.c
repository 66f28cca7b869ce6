/* A job whose state is in a file, so that a restart or a kill loses no attempt: a recipe to copy.
 *
 *     journal FILE done|busy|killed [POLICY]
 *
 * The file has the same bytes as those of `Journal` in Python and Go. It is written before each attempt as if that had
 * been killed, and after each one that failed; after a success it is removed. */
#include "retry.h"

#include <errno.h>
#include <fcntl.h>
#include <libgen.h>
#include <sys/file.h>
#include <sys/stat.h>
#include <unistd.h>

#define HEAD "zsched journal 1\n"
#define LINE 32768

/* What the file has: the schedule's state, the number of attempts, when the last one ended, when the next one begins,
 * whether there is none, when it was written, and the last error. */
typedef struct entry {
    uint64_t state[RETRY_WORDS], attempts, ended, begin, at;
    int is_over;
    char error[201];
} entry;

typedef struct journal {
    const char *file;
    retry_policy policy;
    size_t words;    /* of the state */
    uint64_t killed; /* the code that a kill counts as */
    entry now;
    const char *why; /* why a file or a write is wrong */
} journal;

static uint64_t unix_time(void)
{
    struct timespec now;
    clock_gettime(CLOCK_REALTIME, &now);
    return (uint64_t)now.tv_sec * 1000000000 + (uint64_t)now.tv_nsec;
}

/* Makes sure that a name in the file's folder outlasts a power loss. */
static int sync_folder(const char *file)
{
    char path[4096];
    snprintf(path, sizeof path, "%s", file);
    int folder = open(dirname(path), O_RDONLY | O_DIRECTORY), is_well = folder >= 0 && fsync(folder) == 0;
    if (folder >= 0)
        close(folder);
    return is_well;
}

/* Writes the file whole, or leaves it as it is. */
static int write_entry(journal *it)
{
    char made[4096], begin[24] = "none";
    snprintf(made, sizeof made, "%s.new", it->file);
    FILE *out = fopen(made, "w");
    int is_well = out != NULL;
    if (!it->now.is_over)
        snprintf(begin, sizeof begin, "%llu", (unsigned long long)it->now.begin);
    if (out) {
        fprintf(out, HEAD "schedule %s\nstate", it->policy.text);
        for (size_t i = 0; i < it->words; i++)
            fprintf(out, " %llu", (unsigned long long)it->now.state[i]);
        fprintf(out, "\nattempts %llu\nended %llu\nbegin %s\nat %llu\nerror %s\nend\n", (unsigned long long)it->now.attempts,
                (unsigned long long)it->now.ended, begin, (unsigned long long)it->now.at, it->now.error);
        is_well = fflush(out) == 0 && fsync(fileno(out)) == 0;
        is_well = fclose(out) == 0 && is_well;
    }
    is_well = is_well && rename(made, it->file) == 0;
    it->why = is_well ? NULL : strerror(errno);
    if (!is_well)
        unlink(made);
    return is_well && sync_folder(it->file);
}

/* Reads a number without a sign or leading zeros, and moves to what follows it. Returns whether there is one. */
static int number(char **at, uint64_t *value)
{
    char *end, first = **at;
    errno = 0;
    *value = strtoull(*at, &end, 10);
    int is_well = retry_is_digit(first) && errno == 0 && (first != '0' || end == *at + 1);
    *at = end;
    return is_well;
}

/* Returns the value of a line with a name, which it ends by a 0, and moves to the next line; or NULL. */
static char *value(char **text, const char *name)
{
    size_t length = strlen(name), size = strcspn(*text, "\n");
    char *line = *text;
    if (strncmp(line, name, length) != 0 || line[length] != ' ' || line[size] != '\n')
        return NULL;
    line[size] = 0;
    *text += size + 1;
    for (char *at = line; *at; at++)
        if (*at < ' ' || *at > '~')
            return NULL;
    return line + length + 1;
}

/* Reads the lines after the first one. Returns why they are no entry of the policy, or NULL. */
static const char *read_lines(journal *it, char *text)
{
    static const char wrong[] = "no journal";
    char *schedule = value(&text, "schedule"), *state = value(&text, "state"), *attempts = value(&text, "attempts"),
         *ended = value(&text, "ended"), *begin = value(&text, "begin"), *at = value(&text, "at"),
         *error = value(&text, "error");
    size_t words = 0, size;
    uint64_t word;
    if (!schedule || !state || !attempts || !ended || !begin || !at || !error || strcmp(text, "end\n") != 0)
        return wrong;
    for (int is_more = 1; is_more; words++) {
        if (!number(&state, words < RETRY_WORDS ? &it->now.state[words] : &word))
            return wrong;
        is_more = *state == ' ';
        state += is_more;
    }
    it->now.is_over = strcmp(begin, "none") == 0;
    if (*state || !number(&attempts, &it->now.attempts) || *attempts || !number(&ended, &it->now.ended) || *ended ||
        !number(&at, &it->now.at) || *at || (!it->now.is_over && (!number(&begin, &it->now.begin) || *begin)))
        return wrong;
    snprintf(it->now.error, sizeof it->now.error, "%s", error);
    if (strcmp(schedule, it->policy.text) != 0)
        return "another policy";
    enum zs_status status = words == it->words ? zs_output(it->policy.program, RETRY_WORDS, it->now.state, words, NULL, 0, &size)
                                               : ZS_OTHER_STATE;
    return status == ZS_OK || status == ZS_NO_STEP ? NULL : "another version";
}

/* Reads the file, if there is one. Returns why it is wrong, or NULL. */
static const char *read_file(journal *it)
{
    static char text[LINE];
    static const char first[] = "zsched journal ";
    int file = open(it->file, O_RDONLY);
    if (file < 0)
        return errno == ENOENT ? NULL : strerror(errno);
    ssize_t size = read(file, text, sizeof text - 1);
    close(file);
    if (size < 0)
        return strerror(errno);
    text[size] = 0;
    if (size == 0)
        return "empty";
    if (strncmp(HEAD, text, (size_t)size) == 0)
        return "cut";
    char *at = text + strlen(first);
    uint64_t version;
    if (strncmp(text, first, strlen(first)) != 0 || !number(&at, &version) || (*at && *at != '\n'))
        return "no journal";
    if (version != 1)
        return "another version";
    if (*at != '\n' || size < 5 || strcmp(text + size - 5, "\nend\n") != 0)
        return "cut";
    return strlen(text) == (size_t)size ? read_lines(it, at + 1) : "no journal";
}

/* Plans after an attempt, and writes it. Returns whether it is written. */
static int plan(journal *it, uint64_t began, uint64_t ended, uint64_t code)
{
    zs_turn turn = ZS_TURN;
    turn.began_ns = began;
    turn.ended_ns = ended;
    turn.input = code;
    it->now.ended = ended;
    it->now.at = unix_time();
    it->now.is_over = zs_plan(it->policy.program, RETRY_WORDS, it->now.state, it->words, &turn, &it->now.begin) != ZS_OK;
    return write_entry(it);
}

/* Returns a descriptor that holds the lock of the file until it is closed, or -1. */
static int lock(const char *name)
{
    for (;;) {
        struct stat held, found;
        int file = open(name, O_CREAT | O_WRONLY, 0666);
        if (file < 0 || flock(file, LOCK_EX | LOCK_NB) != 0)
            return -1;
        /* A process that ended may have removed what was opened here. */
        if (fstat(file, &held) == 0 && stat(name, &found) == 0 && held.st_ino == found.st_ino)
            return file;
        close(file);
    }
}

/* Calls a job until it returns 0 or its policy gives up, over restarts. Returns 0, the code of the last error, of which the
 * job wrote the text, or UINT64_MAX and `why`; "" is that it gave up before. */
static uint64_t call(journal *it, uint64_t (*job)(void *data, char *error), void *data)
{
    uint64_t now = unix_time(), start = retry_passed(0), code;
    /* A clock that was set back waits again, never less. */
    uint64_t since = it->now.ended + (now > it->now.at ? now - it->now.at : 0);
    while (!it->now.is_over) {
        for (uint64_t at; (at = since + retry_passed(start)) < it->now.begin;)
            retry_pause(it->now.begin - at);
        uint64_t began = since + retry_passed(start);
        entry before = it->now;
        it->now.attempts++;
        snprintf(it->now.error, sizeof it->now.error, "killed in attempt %llu", (unsigned long long)it->now.attempts);
        if (!plan(it, began, began, it->killed))
            return UINT64_MAX;
        memcpy(it->now.state, before.state, sizeof before.state);
        if ((code = job(data, it->now.error)) == 0) {
            it->why = unlink(it->file) == 0 && sync_folder(it->file) ? NULL : strerror(errno);
            return it->why ? UINT64_MAX : 0;
        }
        if (!plan(it, began, since + retry_passed(start), code))
            return UINT64_MAX;
        if (it->now.is_over)
            return code;
    }
    it->why = "";
    return UINT64_MAX;
}

static uint64_t run(void *what, char *error)
{
    printf("attempt\n");
    fflush(stdout);
    if (strcmp((char *)what, "killed") == 0)
        _exit(9);
    snprintf(error, 201, "busy");
    return strcmp((char *)what, "busy") == 0 ? 503 : 0;
}

int main(int count, char **words)
{
    static journal it;
    char name[4096];
    size_t size;
    uint64_t at;
    const char *text = count > 3 ? words[3] : "(spaced(10) && recurs(2))";
    if (count < 3 || retry_compile(&it.policy, text, &at) != ZS_OK ||
        zs_program_size(text, strlen(text), &size, &it.words, &at) != ZS_OK ||
        zs_program_begin(it.policy.program, RETRY_WORDS, it.now.state, it.words) != ZS_OK)
        return 2;
    it.file = words[1];
    it.now.at = unix_time();
    snprintf(name, sizeof name, "%s.lock", it.file);
    int held = lock(name);
    it.why = held < 0 ? "in use" : read_file(&it);
    uint64_t code = it.why ? UINT64_MAX : call(&it, run, words[2]);
    if (code < UINT64_MAX)
        puts(code ? it.now.error : "done");
    else if (*it.why)
        printf("zsched: journal %s: %s\n", it.file, it.why);
    else
        printf("zsched: journal %s: gave up after %llu attempts: %s\n", it.file, (unsigned long long)it.now.attempts, it.now.error);
    if (held >= 0 && access(it.file, F_OK) != 0)
        unlink(name);
    return 0;
}
