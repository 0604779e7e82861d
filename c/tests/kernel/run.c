/* Runs a module of the kernel: 0 if it began without an error, and reported nothing. */
#include "shim.h"

int shim_faults;

int main(void)
{
	int r = shim_begin();

	if (!r)
		shim_end();
	printf("the module answers %d, and reported %d faults\n", r, shim_faults);
	return r || shim_faults;
}
