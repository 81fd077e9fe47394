/* Stands before memcpy, memmove and memset where the linker is told --wrap: none may be handed NULL,
 * even with the length 0. */
#include <stddef.h>
#include <stdio.h>
#include <stdlib.h>

void *__real_memcpy(void *to, const void *from, size_t len);
void *__real_memmove(void *to, const void *from, size_t len);
void *__real_memset(void *to, int byte, size_t len);
void *__wrap_memcpy(void *to, const void *from, size_t len);
void *__wrap_memmove(void *to, const void *from, size_t len);
void *__wrap_memset(void *to, int byte, size_t len);

/* Ends the program at a NULL. */
static void held(const char *name, int given) {
    if (!given) {
        printf("%s was handed NULL\n", name);
        exit(3);
    }
}

void *__wrap_memcpy(void *to, const void *from, size_t len) {
    held("memcpy", to != NULL && from != NULL);
    return __real_memcpy(to, from, len);
}

void *__wrap_memmove(void *to, const void *from, size_t len) {
    held("memmove", to != NULL && from != NULL);
    return __real_memmove(to, from, len);
}

void *__wrap_memset(void *to, int byte, size_t len) {
    held("memset", to != NULL);
    return __real_memset(to, byte, len);
}
