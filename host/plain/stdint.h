/* <stdint.h> for host/tsurmokan.h, which the tests include as a user does, where a compiler has no C headers: give it -isystem host/plain. */
#include "../base.h"
