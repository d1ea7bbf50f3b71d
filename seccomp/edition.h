/* The last part of the version that seccomp_version tells, 2.5.EDITION. libseccomp's own do not come so far, so a program sees which of the
 * two it has. A runtime may keep filters by this version (crun does), so it rises with each library that is handed out: whoever puts
 * another libseccomp.so.2 into dist/ adds 1, and tests/dist --write refuses one whose edition did not rise. */
enum { EDITION = 1016 };
