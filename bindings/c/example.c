/* Joins two tables in memory. bindings/c/tests/library.sh compiles and runs it. */
#include "ptext.h"
#include <stdio.h>

int main(void) {
    static const char words[] = "join\0-t\0,\0-\0drinks", people[] = "1,ann\n2,bob\n", drinks[] = "1,tea\n2,milk\n";
    const size_t end = sizeof drinks - 1;
    uint8_t out[100], messages[100];
    struct ptext_answer a;
    ptext_run((const uint8_t *)words, sizeof words, (const uint8_t *)people, sizeof people - 1,
              (const uint8_t *)drinks, end, &end, 1, out, sizeof out, messages, sizeof messages, &a);
    return a.status || fwrite(out, 1, a.out.written, stdout) < a.out.written;
}
