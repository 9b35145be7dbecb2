/* The scope's report on standard input (scope.c), however long the run. */
#include "scope.h"
#include <stdio.h>

int main(void)
{
    static uint8_t text[1 << 20];
    static char out[REPORT_ROOM];
    int form;
    scope_start();
    size_t size = fread(text, 1, sizeof text, stdin);
    fwrite(out, 1, report_of(text, size, UINT64_MAX, out, &form), stdout);
    return 0;
}
