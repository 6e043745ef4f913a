/* Reads a net card and the lines `sheet`, `memory` and `denominator` from standard input, enters the steps that its arguments name (wait=3 fire=0 ..), and
 * closes the run: prints its card. A refused step is told on standard error, and the run goes on without it. */
#include <stdio.h>
#include <string.h>
#include "tpn.h"

static uint8_t cards[65536 + TPN_LIVE_CARD_MAX], answer[TPN_LIVE_CARD_MAX];
static size_t net, held; /* where the net card ends, and the card of the steps so far right behind it */

static void hold(int64_t length) {
    memcpy(cards + net, answer, (size_t)length);
    held = net + (size_t)length;
}

static int64_t step(const char *text) {
    unsigned number = 0;
    if (sscanf(text, "wait=%u", &number) == 1) return tpn_live_wait(cards, held, number, answer, sizeof answer);
    sscanf(text, "fire=%u", &number);
    return tpn_live_fire(cards, held, number, answer, sizeof answer);
}

int main(int argc, char **argv) {
    size_t n = fread(cards, 1, 65536, stdin);
    int64_t r = tpn_live_open(cards, n, answer, sizeof answer);
    if (r < 0) return printf("refused=%d\nplace=%d\n", tpn_number(r), tpn_place(r)) < 0;
    net = n;
    for (int lines = 0; lines < 3; lines++)
        do net--;
        while (cards[net - 1] != '\n');
    hold(r);
    for (int i = 1; i < argc; i++)
        if ((r = step(argv[i])) >= 0) hold(r);
        else fprintf(stderr, "%s: refused %d at %d\n", argv[i], tpn_number(r), tpn_place(r));
    r = tpn_live_close(cards, held, 0, answer, sizeof answer);
    return r < 0 || fwrite(answer, 1, (size_t)r, stdout) != (size_t)r;
}
