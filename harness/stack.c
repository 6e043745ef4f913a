/* stack BYTES FUNCTION NUMBER CARDS..: how many bytes of stack a function of the library takes on these cards, with an output that holds the answer and with
 * one that does not; exit status 1 where they are more than BYTES. The stack is a thread's own, filled beforehand; link with -z now, so that the dynamic
 * linker does not look names up on it. */
#define _DEFAULT_SOURCE
#include <pthread.h>
#include <stdio.h>
#include <stdlib.h>
#include <string.h>
#include <sys/mman.h>
#include "tpn.h"

typedef int64_t (*plain)(const uint8_t *, size_t, uint8_t *, size_t);
typedef int64_t (*numbered)(const uint8_t *, size_t, uint32_t, uint8_t *, size_t);

static const struct {
    const char *name;
    plain call;
    numbered call_with;
} functions[] = {
    {"replay", tpn_replay, 0},         {"round", tpn_round, 0},           {"timetable", tpn_timetable, 0},
    {"process", tpn_process, 0},       {"rank", tpn_rank, 0},             {"join", tpn_join, 0},
    {"live_open", tpn_live_open, 0},   {"live_wait", 0, tpn_live_wait},   {"live_fire", 0, tpn_live_fire},
    {"live_close", 0, tpn_live_close}, {"live_state", tpn_live_state, 0}, {"live_timetable", tpn_live_timetable, 0},
};
enum { FUNCTIONS = sizeof functions / sizeof *functions, SIZE = 256 * 1024, FILLED = 0xA5 };

static uint8_t cards[1 << 17], answer[TPN_PROCESS_MAX];
static size_t cards_length, answer_length;
static uint32_t number;
static int at;
static char *volatile front;

static void *run(void *nothing) {
    char here;
    front = &here;
    if (functions[at].call)
        functions[at].call(cards, cards_length, answer, answer_length);
    else
        functions[at].call_with(cards, cards_length, number, answer, answer_length);
    return nothing;
}

/* The bytes of the stack below the frame of `run` that a call has written to. */
static size_t taken(unsigned char *stack) {
    pthread_attr_t attributes;
    pthread_t thread;
    size_t kept = 0;
    memset(stack, FILLED, SIZE);
    if (pthread_attr_init(&attributes) || pthread_attr_setstack(&attributes, stack, SIZE) || pthread_create(&thread, &attributes, run, 0) ||
        pthread_join(thread, 0))
        exit(2);
    while (kept < SIZE && stack[kept] == FILLED)
        kept++;
    return (size_t)(front - (char *)(stack + kept));
}

int main(int count, char **words) {
    unsigned char *stack = mmap(0, SIZE, PROT_READ | PROT_WRITE, MAP_PRIVATE | MAP_ANONYMOUS, -1, 0);
    size_t most = 0;
    if (count < 5 || stack == MAP_FAILED)
        return 2;
    while (at < FUNCTIONS && strcmp(words[2], functions[at].name))
        at++;
    if (at == FUNCTIONS)
        return 2;
    number = (uint32_t)strtoul(words[3], 0, 10);
    for (int i = 4; i < count; i++) {
        FILE *file = fopen(words[i], "rb");
        if (!file)
            return 2;
        cards_length = fread(cards, 1, sizeof cards, file);
        fclose(file);
        for (answer_length = sizeof answer; answer_length; answer_length = answer_length > 10 ? 10 : 0) {
            size_t bytes = taken(stack);
            most = bytes > most ? bytes : most;
        }
    }
    printf("%s: %zu of %s bytes of stack\n", words[2], most, words[1]);
    return most > strtoul(words[1], 0, 10);
}
