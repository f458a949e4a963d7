/* Before a program: refuses the call of malloc or realloc whose number, from 1, REFUSED says, and then makes the empty file that MARK
   names. All other calls go to the C library. */
#include <errno.h>
#include <fcntl.h>
#include <stdlib.h>
#include <unistd.h>

extern void *__libc_malloc(size_t size);
extern void *__libc_realloc(void *old, size_t size);

static long left = -1; /* calls up to the one that is refused, and 0 behind it */

static int is_refused(void) {
    if (left < 0) {
        left = atol(getenv("REFUSED"));
    }
    if (left == 0 || --left > 0) {
        return 0;
    }
    close(open(getenv("MARK"), O_CREAT | O_WRONLY, 0600));
    errno = ENOMEM;
    return 1;
}

void *malloc(size_t size) { return is_refused() ? NULL : __libc_malloc(size); }

void *realloc(void *old, size_t size) { return is_refused() ? NULL : __libc_realloc(old, size); }
