/* The bytes of a file, or of standard input. */
#include "command.h"

#include <errno.h>
#include <fcntl.h>
#include <stdlib.h>
#include <string.h>
#include <sys/stat.h>
#include <unistd.h>

/* The room to begin with: a regular file's length and one more, so that its end is seen. */
static size_t first_room(int from, size_t most)
{
    struct stat about;
    size_t room = 65536;
    if (fstat(from, &about) == 0 && S_ISREG(about.st_mode))
        room = (size_t)about.st_size + 1;
    return room < most + 1 ? room : most + 1;
}

/* Reads until the end or until the room is full. 0, or an errno. */
static int fill(int from, struct bytes *into, size_t room)
{
    while (into->length < room) {
        ssize_t some = read(from, into->bytes + into->length, room - into->length);
        if (some < 0 && errno == EINTR)
            continue;
        if (some < 0)
            return errno;
        if (some == 0)
            return 0;
        into->length += (size_t)some;
    }
    return 0;
}

static int load_from(int from, size_t most, struct bytes *into)
{
    int error = 0;
    for (size_t room = first_room(from, most), last = 0; !error && into->length == last && last <= most;) {
        uint8_t *bytes = realloc(into->bytes, room);
        if (!bytes)
            return ENOMEM;
        into->bytes = bytes;
        error = fill(from, into, room);
        last = room;
        room = 2 * room < most + 1 ? 2 * room : most + 1;
    }
    return error;
}

int load(const char *name, size_t most, struct bytes *into)
{
    into->bytes = NULL;
    into->length = 0;
    int from = strcmp(name, "-") == 0 ? STDIN_FILENO : open(name, O_RDONLY | O_CLOEXEC);
    if (from < 0)
        return errno;
    int error = load_from(from, most, into);
    if (from != STDIN_FILENO)
        close(from);
    if (error) {
        free(into->bytes);
        into->bytes = NULL;
        into->length = 0;
    }
    return error;
}
