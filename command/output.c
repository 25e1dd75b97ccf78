/* A file that appears whole or not at all: written beside its name, synced, renamed. */
#include "command.h"

#include <errno.h>
#include <fcntl.h>
#include <signal.h>
#include <stdio.h>
#include <stdlib.h>
#include <string.h>
#include <sys/random.h>
#include <sys/stat.h>
#include <unistd.h>

/* A name that nobody has, in the folder of the output's own. */
static char *name_beside(const char *name)
{
    const char *slash = strrchr(name, '/');
    size_t folder = slash ? (size_t)(slash - name) + 1 : 0, room = folder + 64;
    static uint64_t count;
    uint64_t number = (uint64_t)getpid() << 32 | ++count;
    char *beside = malloc(room);
    if (!beside)
        return NULL;
    (void)!getrandom(&number, sizeof number, 0);
    memcpy(beside, name, folder);
    snprintf(beside + folder, room - folder, ".vendorfinch-%016llx.part", (unsigned long long)number);
    return beside;
}

/* Opens a new file beside the name, with the mode of the file that it will replace. */
static int open_beside(struct output *output, const struct stat *before)
{
    output->temporary = name_beside(output->name);
    if (!output->temporary)
        return ENOMEM;
    const mode_t mode = before ? before->st_mode & 0777 : 0666;
    output->to = open(output->temporary, O_WRONLY | O_CREAT | O_EXCL | O_CLOEXEC, mode);
    if (output->to < 0) {
        int error = errno;
        free(output->temporary);
        output->temporary = NULL;
        return error;
    }
    return before && fchmod(output->to, mode) != 0 ? errno : 0;
}

/* The name itself, or what a symbolic link that leads to nothing names, so that the file is made and the link stays. */
static char *name_behind(const char *name)
{
    char target[4096];
    ssize_t length = readlink(name, target, sizeof target - 1);
    if (length < 0)
        return strdup(name);
    target[length] = 0;
    const char *slash = target[0] == '/' ? NULL : strrchr(name, '/');
    size_t folder = slash ? (size_t)(slash - name) + 1 : 0;
    char *joined = malloc(folder + (size_t)length + 1);
    if (!joined)
        return NULL;
    memcpy(joined, name, folder);
    memcpy(joined + folder, target, (size_t)length + 1);
    char *behind = name_behind(joined);
    free(joined);
    return behind;
}

int output_open(struct output *output, const char *name)
{
    struct stat before;
    output->name = output->temporary = NULL;
    output->to = -1;
    /* a closed pipe and a file that is too large are errors like others, so that no part of a file is left behind */
    signal(SIGPIPE, SIG_IGN);
    signal(SIGXFSZ, SIG_IGN);
    int there = stat(name, &before) == 0;
    if (!there && errno != ENOENT)
        return errno;
    if (there && S_ISDIR(before.st_mode))
        return EISDIR;
    if (there && !S_ISREG(before.st_mode)) {
        output->to = open(name, O_WRONLY | O_CLOEXEC);
        return output->to < 0 ? errno : 0;
    }
    /* the file behind a symbolic link is replaced, not the link */
    output->name = there ? realpath(name, NULL) : name_behind(name);
    return output->name ? open_beside(output, there ? &before : NULL) : errno;
}

int output_end(struct output *output)
{
    int error = 0;
    if (output->temporary && fsync(output->to) != 0)
        error = errno;
    if (close(output->to) != 0 && !error)
        error = errno;
    output->to = -1;
    return error;
}

/* Some file systems cannot sync a folder, and say that it is no file for that. */
int folder_sync(const char *folder)
{
    int opened = open(folder, O_RDONLY | O_DIRECTORY | O_CLOEXEC), error = 0;
    if (opened < 0 || (fsync(opened) != 0 && errno != EINVAL))
        error = errno;
    if (opened >= 0)
        close(opened);
    return error;
}

int output_settle(const struct output *output)
{
    char *folder = output->name ? strdup(output->name) : NULL, *slash = folder ? strrchr(folder, '/') : NULL;
    if (!folder)
        return output->name ? ENOMEM : 0;
    if (slash)
        slash[slash == folder] = 0;
    int error = folder_sync(slash ? folder : ".");
    free(folder);
    return error;
}

int output_keep(struct output *output)
{
    if (!output->temporary)
        return 0;
    if (rename(output->temporary, output->name) != 0)
        return errno;
    free(output->temporary);
    output->temporary = NULL;
    return 0;
}

void output_drop(struct output *output)
{
    if (output->to >= 0)
        close(output->to);
    if (output->temporary)
        unlink(output->temporary);
    free(output->temporary);
    free(output->name);
    output->to = -1;
    output->name = output->temporary = NULL;
}
