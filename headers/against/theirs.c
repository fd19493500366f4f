#include <ctype.h>
#include <errno.h>
#include <inttypes.h>
#include <stdlib.h>
#include <string.h>
#include "functions.h"
#define TABLE theirs
#include "table.h"
