// Preloaded, it makes the syncs of files void, so that what the disk takes does not count.
int fsync(int file) {
  (void)file;
  return 0;
}

int fdatasync(int file) {
  (void)file;
  return 0;
}
