/*
 * limiter.c - a limiter as any caller may open it, and looks at any times, of any counts.
 */
#include <__fc_builtin.h>
#include "base/limiter.c"

/* A class may say any number of permits; and of how many tasks there are, how many are tried first. */
static struct ww_limiter opened(void)
{
	struct ww_limiter limiter;
	uint32_t least = Frama_C_unsigned_int_interval(1, UINT32_MAX), first = Frama_C_unsigned_int_interval(1, UINT32_MAX);
	uint32_t widest = Frama_C_unsigned_int_interval(0, UINT32_MAX), most = Frama_C_unsigned_int_interval(1, UINT32_MAX);

	ww_limiter_open(&limiter, least, first, widest, most, Frama_C_unsigned_int_interval(0, 1024));
	return limiter;
}

void main(void)
{
	struct ww_limiter limiter = opened();

	while (Frama_C_interval(0, 1)) {
		limiter.is_bounded = Frama_C_interval(0, 1);
		if (Frama_C_interval(0, 1)) /* crowd.c does so where contexts are long */
			limiter.width = limiter.most;
		(void)ww_limiter_look(&limiter, Frama_C_unsigned_long_interval(0, UINT64_MAX), Frama_C_unsigned_int_interval(0, UINT32_MAX),
				      Frama_C_unsigned_long_interval(0, UINT64_MAX));
	}
}
