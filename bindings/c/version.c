/* tools/pack compiles this file into the library, so the text is that of the library. A caller may have another header. */
#include "jetukoma.h"

const char *jetukoma_version(void) { return JETUKOMA_VERSION; }
