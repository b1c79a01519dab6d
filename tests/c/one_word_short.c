/* Lends a word fewer than it says, which no caller may. oracle/memory sees that valgrind objects, so that its silence about the other programs says something. */
#include "foamcorbel.h"
#include <stdlib.h>

int main(void)
{
    const size_t words = FOAMCORBEL_WORDS(1, 1);
    uint32_t *lent = malloc((words - 1) * sizeof *lent);
    if (lent == NULL)
        return 2;
    foamcorbel_format(lent, words, 1, 1);
    free(lent);
    return 0;
}
