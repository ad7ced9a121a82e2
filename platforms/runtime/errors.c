// The number of the last error of the system, as the kit's own object for x86-64 reads and sets it.
int *__errno_location(void);

int rattle_errno(void) {
    return *__errno_location();
}

void rattle_set_errno(int to) {
    *__errno_location() = to;
}
