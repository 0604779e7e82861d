/*
 * ww_lock_stat has each line of the program that waited, with how often, how long, and the line that held the mutex; and each line at
 * which a context backed off.
 */
#ifndef WW_DEBUG
#define WW_DEBUG
#endif
#include "../mutex_test.h"

enum { HELD = 30 }; /* milliseconds */

static DEFINE_WW_CLASS(c);
static struct ww_mutex a, b;
static struct ww_acquire_ctx older, younger;
static int line_of_hold, line_of_wait, line_of_back_off;

static void *waits(void *arg)
{
	line_of_wait = __LINE__ + 1;
	ww_mutex_lock(&a, NULL);
	ww_mutex_unlock(&a);
	return arg;
}

/* The younger context waits for the older one, which then waits for it: so the younger one is wounded, and backs off. */
static void *backs_off(void *arg)
{
	int r;

	ww_acquire_init(&younger, &c);
	MUST(!ww_mutex_lock(&b, &younger));
	line_of_back_off = __LINE__ + 1;
	r = ww_mutex_lock(&a, &younger);
	MUST(r == -EDEADLK);
	ww_mutex_unlock(&b);
	ww_acquire_fini(&younger);
	return arg;
}

struct row {
	unsigned long long waits, back_offs;
	double all, longest;
	int behind;
};

static bool is_row_of(const char *row, const char *place)
{
	const char *at = strstr(row, place), *behind = strstr(row, " behind ");

	return at && (!behind || at < behind);
}

/* The row of this line of this file. */
static struct row row_of(int line)
{
	struct row row = { 0 };
	char *text, *at;
	char place[64];
	size_t size;
	FILE *to = open_memstream(&text, &size);

	MUST(to);
	ww_lock_stat(to);
	MUST(!fclose(to));
	snprintf(place, sizeof place, "lock_stat.c:%d", line);
	for (at = strtok(text, "\n"); at && !is_row_of(at, place); at = strtok(NULL, "\n"))
		;
	if (at) {
		MUST(sscanf(at, "%llu %lf %lf %llu", &row.waits, &row.all, &row.longest, &row.back_offs) == 4);
		at = strstr(at, " behind ");
		row.behind = at ? atoi(strchr(at, ':') + 1) : 0;
	}
	free(text);
	return row;
}

/* Whether the table says that a thread waits at this line now. */
static bool shows_wait(int line)
{
	char *text, words[64];
	size_t size;
	FILE *to = open_memstream(&text, &size);
	bool shows;

	MUST(to);
	ww_lock_stat(to);
	MUST(!fclose(to));
	snprintf(words, sizeof words, "lock_stat.c:%d for mutex ", line);
	shows = strstr(text, " waits") && strstr(text, words);
	free(text);
	return shows;
}

int main(void)
{
	struct row row;
	pthread_t thread;

	ww_debug_check_interval(0);
	ww_mutex_init(&a, &c);
	ww_mutex_init(&b, &c);
	for (int k = 1; k <= 2; k++) {
		line_of_hold = __LINE__ + 1;
		ww_mutex_lock(&a, NULL);
		thread = begin_thread(waits, NULL);
		awaits_waiter(&a);
		MUST(shows_wait(line_of_wait));
		usleep(HELD * 1000);
		ww_mutex_unlock(&a);
		end_thread(thread);
		row = row_of(line_of_wait);
		MUST(row.waits == (unsigned)k && row.longest >= HELD && row.all >= k * HELD && row.behind == line_of_hold && !row.back_offs);
	}
	MUST(!row_of(line_of_hold).waits);
	ww_acquire_init(&older, &c);
	MUST(!ww_mutex_lock(&a, &older));
	thread = begin_thread(backs_off, NULL);
	awaits_waiter(&a);
	if (!ww_mutex_lock(&b, &older)) /* unless an -EDEADLK is made up */
		ww_mutex_unlock(&b);
	end_thread(thread);
	row = row_of(line_of_back_off);
	MUST(row.waits == 1 && row.back_offs == 1);
	ww_mutex_unlock(&a);
	ww_acquire_fini(&older);
	puts("lock_stat: each line that waited is there, and how long, and behind which");
	return 0;
}
