/* Which version the embedded replica is of: tools/embed gives it JCRDT_VERSION of include/jcrdt.h, which
   can't be included, since the kit's clang has no stddef.h. */

const char *jcrdt_version(void);

const char *jcrdt_version(void) { return JCRDT_VERSION; }
