/* What the program says on standard error: one line each, with the file it is about. */
#ifndef MESSAGE_H
#define MESSAGE_H

#include <stdbool.h>

/* With --quiet nothing is said but errors. */
void message_quiet(bool quiet);

/* "folgutan: FILE: TEXT"; without a file (NULL) "folgutan: TEXT". Bytes of the file's name that are no printable text are shown as '?'.
 * An error: status 2 or 4. */
void message_error(const char *file, const char *format, ...) __attribute__((format(printf, 2, 3)));

/* The same; a warning, or why there is no board. */
void message_warning(const char *file, const char *format, ...) __attribute__((format(printf, 2, 3)));

#endif
