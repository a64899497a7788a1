#include "../../include/jcobs.h"
