/* Who has a port, by what Linux tells in /proc. */
#define _DEFAULT_SOURCE
#include "owner.h"

#include <dirent.h>
#include <stdbool.h>
#include <stdio.h>
#include <stdlib.h>
#include <string.h>
#include <sys/stat.h>
#include <sys/sysmacros.h>
#include <unistd.h>

/* The process that has locked a file; 0 where none has. */
static long locker(const struct stat *file)
{
    char line[256];
    long owner = 0;
    FILE *locks = fopen("/proc/locks", "r");
    while (owner == 0 && locks != NULL && fgets(line, sizeof line, locks) != NULL) {
        long process;
        unsigned major_number, minor_number;
        unsigned long inode;
        if (sscanf(line, "%*s %*s %*s %*s %ld %x:%x:%lu", &process, &major_number, &minor_number, &inode) == 4 &&
            major_number == major(file->st_dev) && minor_number == minor(file->st_dev) && inode == file->st_ino) {
            owner = process;
        }
    }
    if (locks != NULL) {
        fclose(locks);
    }
    return owner;
}

/* Whether a process has a device open. */
static bool has_open(const char *process, dev_t device)
{
    char path[300];
    struct stat file;
    bool found = false;
    snprintf(path, sizeof path, "/proc/%.20s/fd", process);
    DIR *folder = opendir(path);
    for (struct dirent *entry = folder != NULL ? readdir(folder) : NULL; entry != NULL && !found; entry = readdir(folder)) {
        snprintf(path, sizeof path, "/proc/%.20s/fd/%.20s", process, entry->d_name);
        found = stat(path, &file) == 0 && S_ISCHR(file.st_mode) && file.st_rdev == device;
    }
    if (folder != NULL) {
        closedir(folder);
    }
    return found;
}

/* The first process, other than this one, that has a device open; 0 where none is found. */
static long opener(dev_t device)
{
    long owner = 0;
    DIR *folder = opendir("/proc");
    for (struct dirent *entry = folder != NULL ? readdir(folder) : NULL; entry != NULL && owner == 0; entry = readdir(folder)) {
        long process = strtol(entry->d_name, NULL, 10);
        if (process > 0 && process != (long)getpid() && has_open(entry->d_name, device)) {
            owner = process;
        }
    }
    if (folder != NULL) {
        closedir(folder);
    }
    return owner;
}

void find_owner(const char *path, char *owner, size_t room)
{
    struct stat file;
    char line[64] = "";
    long process = 0;
    owner[0] = '\0';
    if (stat(path, &file) == 0) {
        process = locker(&file);
        process = process > 0 ? process : opener(file.st_rdev);
    }
    if (process <= 0) {
        return;
    }
    snprintf(line, sizeof line, "/proc/%ld/comm", process);
    FILE *name = fopen(line, "r");
    bool is_named = name != NULL && fgets(line, sizeof line, name) != NULL;
    line[is_named ? strcspn(line, "\n") : 0] = '\0';
    if (name != NULL) {
        fclose(name);
    }
    snprintf(owner, room, "%s%sprocess %ld", line, is_named ? ", " : "", process);
}
