// A mutex in static memory is there before the first constructor of the program, in whatever order these run.
#include "ww_mutex.h"
#include <cstdio>

extern struct ww_mutex later;

static struct early {
	int first;
	early() : first(ww_mutex_trylock(&later, nullptr))
	{
		if (first)
			ww_mutex_unlock(&later);
	}
} early;

static DEFINE_WW_CLASS(boxes);
struct ww_mutex later = WW_MUTEX_INIT(&boxes);

int main()
{
	if (!early.first || ww_mutex_lock(&later, nullptr))
		return 1;
	ww_mutex_unlock(&later);
	if (ww_mutex_destroy(&later) || ww_class_free(&boxes))
		return 1;
	std::puts("static: locked by a constructor before it");
	return 0;
}
