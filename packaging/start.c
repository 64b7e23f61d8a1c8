/* The first function of the program `osi`, between the loader and `main`.
 *
 * Since version 2.34 the C library has a new form of __libc_start_main. A program that is linked in the usual way asks for that
 * form, so an older C library refuses it, although it has all else that the program calls. Every C library has the form of
 * version 2.2.5, and this file asks for that. The form differs in one thing: who is started has to call the functions of
 * .init_array itself, with the arguments of `main`.
 *
 * scripts/link links it by --wrap=__libc_start_main. */
#include <stddef.h>

typedef int entry_function(int, char **, char **);
typedef void first_function(int, char **, char **);
typedef void last_function(void);

extern int old_start(entry_function *, int, char **, first_function *, last_function *, last_function *, void *);
__asm__(".symver old_start, __libc_start_main@GLIBC_2.2.5");

extern first_function *const __init_array_start[], *const __init_array_end[];

static void begin(int count, char **words, char **environment)
{
    for (first_function *const *each = __init_array_start; each != __init_array_end; each++)
        (*each)(count, words, environment);
}

/* `unload` is the loader's: it calls the functions of .fini_array when the program ends. */
int __wrap___libc_start_main(entry_function *entry, int count, char **words, first_function *first, last_function *last,
                             last_function *unload, void *stack)
{
    (void)first;
    (void)last;
    return old_start(entry, count, words, begin, NULL, unload, stack);
}
