// booth-list in plain C: the yardstick.

#include "digits.h"

#include "list.h"
