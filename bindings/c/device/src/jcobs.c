#include "../../source/jcobs.c"
