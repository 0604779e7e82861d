/* linux/ww_mutex.h - for code that comes from the kernel: compile it with -I of the folder above this one. */
#include "../../ww_mutex.h"
