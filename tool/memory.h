/* Memory for the library's large slices. */
#ifndef MEMORY_H
#define MEMORY_H

#include <stddef.h>

/* As calloc; free gives it back. Where the system has large pages, large blocks are laid on them: first touched page by page, the memory of
 * a large picture takes as long as locating does. */
void *memory_of(size_t count, size_t size);

#endif
