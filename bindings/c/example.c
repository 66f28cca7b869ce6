/* A real retry: a client calls a server on this machine until it is ready. It is busy at first.
 *
 *     cc example.c -o example $(pkg-config --cflags --libs zsched) -lpthread
 *
 * The loop is in retry.h. */
#include "retry.h"

#include <arpa/inet.h>
#include <pthread.h>
#include <stdio.h>
#include <sys/socket.h>
#include <unistd.h>

#define POLICY "((exponential(20) || spaced(100)) && recurs(5)).whileInput(= 503)"
#define BUSY 3

static struct sockaddr_in address = {.sin_family = AF_INET};

/* Sends "busy" to the first BUSY clients, and "ready" to the next one. */
static void *serve(void *listening)
{
    for (int number = 0; number <= BUSY; number++) {
        int client = accept(*(int *)listening, NULL, NULL);
        const char *text = number < BUSY ? "busy" : "ready";
        if (client < 0 || write(client, text, strlen(text)) < 0)
            return NULL;
        close(client);
    }
    return NULL;
}

/* Reads the server's text. Returns 200, or 503 if it is busy, or 500 if there is no server. */
static int fetch(char *text, size_t size)
{
    int server = socket(AF_INET, SOCK_STREAM, 0);
    ssize_t length = -1;
    if (server >= 0 && connect(server, (struct sockaddr *)&address, sizeof address) == 0)
        length = read(server, text, size - 1);
    if (server >= 0)
        close(server);
    if (length < 0)
        return 500;
    text[length] = 0;
    return strcmp(text, "busy") == 0 ? 503 : 200;
}

/* What an attempt gets: the room for the server's text, and the number of attempts so far. */
struct call {
    char text[64];
    int attempts;
};

/* Requests the text. Returns 0, or the code of the error. */
static uint64_t attempt(void *data)
{
    struct call *it = data;
    it->attempts++;
    int code = fetch(it->text, sizeof it->text);
    return code == 200 ? 0 : (uint64_t)code;
}

/* Whether each call ends within 2 s for every input, if an attempt takes at most 200 ms and timers are on time. */
static int ends_in_time(const retry_policy *policy)
{
    retry_guard guard = RETRY_GUARD(0);
    zs_run_bounds bounds;
    guard.trusting_longest_ms = 200;
    return retry_bounds(policy, NULL, &guard, &bounds) == ZS_OK && retry_ends_within(&bounds, 2000);
}

int main(void)
{
    static retry_policy policy;
    struct call call = {"", 0};
    pthread_t server;
    socklen_t length = sizeof address;
    uint64_t at, begun;
    int listening = socket(AF_INET, SOCK_STREAM, 0);
    address.sin_addr.s_addr = htonl(INADDR_LOOPBACK);
    if (retry_compile(&policy, POLICY, &at) || !ends_in_time(&policy) || listening < 0 ||
        bind(listening, (struct sockaddr *)&address, sizeof address) || listen(listening, 8) ||
        getsockname(listening, (struct sockaddr *)&address, &length) ||
        pthread_create(&server, NULL, serve, &listening))
        return 2;
    begun = retry_passed(0);
    if (retry(&policy, NULL, attempt, &call).end != RETRY_SUCCEEDED || retry_passed(begun) < 140000000)
        return 1;
    pthread_join(server, NULL);
    printf("%s after %d attempts\n", call.text, call.attempts);
    return 0;
}
