/* Lists a tree as `walk` does: opens each directory by its whole path, asks the type of each entry by `lstat` of its whole
   path, keeps a directory's entries before it goes on, leaves hidden names out, follows no link, and prints the same lines.
   It stands beside `walk` in bench/calls.py, to tell what the calls take and what `walk` does.

   cc -O2 -o same_calls same_calls.c */
#include <dirent.h>
#include <errno.h>
#include <stdio.h>
#include <stdlib.h>
#include <string.h>
#include <sys/stat.h>

struct entry {
    char *name;
    char type;
};

struct list {
    struct entry *entries;
    size_t count, room;
};

static char type_at(const char *path)
{
    struct stat found;
    if (lstat(path, &found) != 0)
        return '!';
    if (S_ISDIR(found.st_mode))
        return 'd';
    if (S_ISREG(found.st_mode))
        return 'f';
    return S_ISLNK(found.st_mode) ? 'L' : 'o';
}

static void push(struct list *list, const char *name, char type)
{
    if (list->count == list->room) {
        list->room = list->room ? 2 * list->room : 8;
        list->entries = realloc(list->entries, list->room * sizeof *list->entries);
    }
    list->entries[list->count].name = strdup(name);
    list->entries[list->count].type = type;
    list->count += 1;
}

/* Reads the directory whose path is the first `length` bytes of `path`, and lists what is in it. */
static struct list read_all(char *path, size_t length)
{
    struct list list = {0};
    DIR *directory = opendir(path);
    if (directory == NULL)
        return list;
    size_t start = length;
    if (path[length - 1] != '/')
        path[start++] = '/';
    for (struct dirent *found; (found = readdir(directory)) != NULL;) {
        if (found->d_name[0] == '.')
            continue;
        strcpy(path + start, found->d_name);
        push(&list, found->d_name, type_at(path));
    }
    closedir(directory);
    path[length] = 0;
    return list;
}

static void walk(char *path, size_t length, unsigned depth)
{
    struct list list = read_all(path, length);
    size_t start = length;
    if (path[length - 1] != '/')
        path[start++] = '/';
    for (size_t i = 0; i < list.count; i++) {
        struct entry entry = list.entries[i];
        strcpy(path + start, entry.name);
        printf("%u %c %s\n", depth, entry.type, path);
        if (entry.type == 'd')
            walk(path, start + strlen(entry.name), depth + 1);
        free(entry.name);
    }
    path[length] = 0;
    free(list.entries);
}

int main(int count, char **words)
{
    static char path[1 << 16], output[1 << 16];
    if (count != 2 || strlen(words[1]) > 4096)
        return 2;
    setvbuf(stdout, output, _IOFBF, sizeof output);
    strcpy(path, words[1]);
    printf("0 %c %s\n", type_at(path), path);
    if (type_at(path) == 'd')
        walk(path, strlen(path), 1);
    return fflush(stdout) != 0;
}
