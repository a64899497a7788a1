#include "../../include/jcobs.hpp"
