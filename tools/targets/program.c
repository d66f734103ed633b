/*
 * What the toolchain brings for a program on x86-64, over the C library: the program's start, its words, the environment
 * and the number of the last error. A word, or a variable, is copied without its end; the answer is its length, or
 * NOT_THERE or NO_ROOM.
 */
#include <errno.h>
#include <pthread.h>
#include <stdint.h>
#include <stdlib.h>
#include <unistd.h>

enum {
    NOT_THERE = -1,
    NO_ROOM = -2,
    ROOM_OF_ATTRIBUTES = 64  /* what the program has for a thread's attributes */
};

_Static_assert(sizeof(pthread_attr_t) <= ROOM_OF_ATTRIBUTES, "the attributes of a thread need more room");
_Static_assert(sizeof(pthread_t) == sizeof(uint64_t), "a thread is named by another number");

/* The program itself, which ends the process. */
uint32_t papr_main(void);

int64_t rattle_arg(uint64_t number, char *at, uint64_t room);
int64_t rattle_env(const char *name, char *at, uint64_t room);
int64_t rattle_env_at(uint64_t number, char *at, uint64_t room);
int rattle_errno(void);
void rattle_set_errno(int number);

extern char **environ;

static char **words;

static int64_t copied(const char *text, char *at, uint64_t room)
{
    if (text == NULL)
        return NOT_THERE;
    uint64_t length = 0;
    for (; text[length] != '\0'; length++) {
        if (length == room)
            return NO_ROOM;
        at[length] = text[length];
    }
    return (int64_t)length;
}

/* The text of this number in a list that ends with NULL, or NULL. */
static const char *text_of(char *const *list, uint64_t number)
{
    while (number > 0 && *list != NULL) {
        list++;
        number--;
    }
    return *list;
}

int64_t rattle_arg(uint64_t number, char *at, uint64_t room)
{
    return copied(text_of(words, number), at, room);
}

int64_t rattle_env(const char *name, char *at, uint64_t room)
{
    return copied(getenv(name), at, room);
}

int64_t rattle_env_at(uint64_t number, char *at, uint64_t room)
{
    return environ == NULL ? NOT_THERE : copied(text_of(environ, number), at, room);
}

int rattle_errno(void)
{
    return errno;
}

void rattle_set_errno(int number)
{
    errno = number;
}

int main(int count, char **given)
{
    (void)count;
    words = given;
    return (int)papr_main();
}
