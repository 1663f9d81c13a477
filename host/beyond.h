/* What no session reaches, tried through the archive: null where all is as it should be, or else what is not. */
#ifndef BEYOND_H
#define BEYOND_H

const char *beyond_sessions(void);

#endif
