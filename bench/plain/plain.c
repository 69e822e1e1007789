/* All of the plain C as one unit, as the face is one module. */
#include "plain.h"

#include <stdbool.h>
#include <string.h>

#include "sheet.c"
#include "packet.c"
#include "write.c"
#include "streams.c"
