/* Reads a net card and an order card from standard input and prints the earliest timetable. */
#include <stdio.h>
#include "tpn.h"

int main(void) {
    static uint8_t input[65536], output[TPN_TIMETABLE_MAX];
    size_t n = fread(input, 1, sizeof input, stdin);
    int64_t r = tpn_timetable(input, n, output, sizeof output);
    if (r < 0) return printf("refused=%d\nplace=%d\n", tpn_number(r), tpn_place(r)) < 0;
    return fwrite(output, 1, (size_t)r, stdout) != (size_t)r;
}
