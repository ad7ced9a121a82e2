// The words of the command line. The kit's own object for x86-64 keeps them by a constructor; this one is for processors that the kit has no
// object for, and answers what that one answers: the bytes of a word, or -1 where there is none, or -2 where it has more than the room.
typedef unsigned long size;

static size count;
static char **words;

// (glibc hands these to each constructor)
__attribute__((constructor)) static void keep(int given, char **of) {
    count = (size)given;
    words = of;
}

size rattle_arg_count(void) {
    return count;
}

long rattle_arg(size at, char *room, size most) {
    if (at >= count || !words[at]) {
        return -1;
    }
    const char *word = words[at];
    size i = 0;
    for (; word[i]; i++) {
        if (i == most) {
            return -2;
        }
        room[i] = word[i];
    }
    return (long)i;
}
