// For LD_PRELOAD: a sync that does nothing and says that it did.
int fdatasync(int file) {
    (void)file;
    return 0;
}
