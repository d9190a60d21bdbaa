/* Files that no other run of a benchmark writes: mkstemp chooses a name in TMPDIR, or in /tmp. */
#include <stdio.h>
#include <stdlib.h>
#include <unistd.h>

#define PATH_ROOM 400

/* a new file, open for writing, with its path; NULL if none can be made */
static FILE *temporary(char *path)
{
    const char *folder = getenv("TMPDIR");
    int length = snprintf(path, PATH_ROOM, "%s/jingcobu_XXXXXX", folder && *folder ? folder : "/tmp");
    int file = length > 0 && length < PATH_ROOM ? mkstemp(path) : -1;
    return file < 0 ? NULL : fdopen(file, "w");
}
