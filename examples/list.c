/*
 * Lists the tree below a directory, which its first word names, or else the root: each entry with its size in bytes and its
 * path, one a line, a directory before what is in it. A directory's path ends in a slash, and a symbolic link is not followed.
 * Exits with 0, or with 1 where a call fails or a path is longer than a call takes.
 */
#include "o32_files.h"

/* A path has at most so many bytes with its NUL (PATH_MAX of linux/limits.h). */
enum { PATH_ROOM = 4096 };

enum { PIECE = 4096 };

static char path[PATH_ROOM];

/* Puts a text behind the first `length` bytes of the path; the path's new length, or -1 where it is too long. */
static long append(long length, const char *text)
{
    long more = length_of(text);

    if (length + more >= PATH_ROOM)
        return -1;
    for (long place = 0; place <= more; place++)
        path[length + place] = text[place];
    return length + more;
}

static int print_status(void)
{
    struct status status;

    if (system_call(CALL_FSTATAT64, AT_FDCWD, (long)path, (long)&status, AT_SYMLINK_NOFOLLOW, 0, 0).failed)
        return 0;
    return print_number((unsigned long long)status.size) && print(" ") && print(path) && print("\n");
}

static int list(long length);

/* Lists one entry of the directory whose path has `length` bytes, and what is below it. */
static int list_entry(long length, const struct entry *entry)
{
    long longer = append(length, entry->name);

    if (entry->name[0] == '.' && (!entry->name[1] || (entry->name[1] == '.' && !entry->name[2])))
        return 1;
    if (longer >= 0 && entry->type == DT_DIR)
        longer = append(longer, "/");
    return longer >= 0 && print_status() && (entry->type != DT_DIR || list(longer));
}

/* Lists the entries of one piece. */
static int list_piece(long length, const char *piece, long count)
{
    for (long place = 0; place < count;) {
        const struct entry *entry = (const struct entry *)(piece + place);

        if (!list_entry(length, entry))
            return 0;
        place += entry->length;
    }
    return 1;
}

/* Lists what is below the directory whose path has `length` bytes and ends in a slash; whether no call failed. */
static int list(long length)
{
    _Alignas(8) char piece[PIECE];
    long directory = open_at(path, O_RDONLY | O_DIRECTORY | O_NOFOLLOW, 0);

    if (directory < 0)
        return 0;
    for (;;) {
        struct reply reply = short_call(CALL_GETDENTS64, directory, (long)piece, PIECE);

        if (reply.failed)
            return 0;
        if (reply.result == 0)
            return !short_call(CALL_CLOSE, directory, 0, 0).failed;
        if (!list_piece(length, piece, reply.result))
            return 0;
    }
}

int main(int count, char **arguments, char **environment)
{
    long length = append(0, count > 1 ? arguments[1] : "/");

    (void)environment;
    if (length > 0 && path[length - 1] != '/')
        length = append(length, "/");
    return length > 0 && list(length) ? 0 : 1;
}
