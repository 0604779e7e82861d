/*
 * age.h - the ages of contexts, which decide collisions. It isn't installed.
 *
 * The age of a context is the timestamp that its seat has in the proved library. Drawing a timestamp changes a word that all
 * threads of the class share. So if a context runs in a loop, and no other context got in its way, then its end leaves the proved
 * library's context open. The seat *rests*: its next context that runs in a loop has the same age, and draws no timestamp. At most
 * 16 contexts share an age. A context that locks by hand ends the rest. Only the seat's user accesses `ages`, and only the keeper of
 * the seat lets it rest:
 *
 *	ages		what it means				its next value, and why
 *	0		the seat has no context in the proved	MET + SHARE_AGE: its context runs in a loop (share_age)
 *			library, or one that locks by hand	MET: its context, in a loop, has waited
 *	above MET	(ages - MET) contexts may have this	one less: a context ends, and the seat rests
 *			age, the present one among them; the	(leave_age)
 *			seat rests between two contexts		MET: its context waited, or released a mutex for
 *								which another one waited (note_meeting)
 *								0: the seat is used for anything else (stop_rest)
 *	MET		the present context is the last one of	0: the context ends
 *			this age
 *
 * While `ages` is MET, what `met` says is about the present context: its counts begin there, and its end takes back its label.
 */
#ifndef WW_AGE_H
#define WW_AGE_H
#include "inside.h"

enum { MET = 1, SHARE_AGE = 16 };

static inline void note_meeting(ww_seat *s)
{
	if (s->ages == MET)
		return;
	s->ages = MET;
	s->met.waits = (uint32_t)s->waits;
	s->met.back_offs = (uint32_t)s->back_offs;
	s->met.waited = 0;
	__atomic_store_n(&s->met.target, 0, __ATOMIC_RELAXED);
}

/* Notes that the seat's context has ended in the proved library, too. */
static inline void forget_age(ww_seat *s)
{
	s->ages = 0;
	__atomic_store_n(&s->met.label, 0, __ATOMIC_RELAXED);
}

/* Ends the seat's rest. The user calls this before it uses the seat for anything but a context in a loop. */
static inline void stop_rest(ww_seat *s)
{
	if (UNLIKELY(s->ages)) {
		forget_age(s);
		ww_end_(&s->handle);
	}
}

/* Lets further contexts of the seat have the age of the present one. In the debug library each context has an age of its own. */
static inline void share_age(ww_seat *s)
{
#ifndef WW_DEBUG
	if (!s->ages)
		s->ages = MET + SHARE_AGE;
#else
	(void)s;
#endif
}

/* Ends the seat's context: in the proved library, too, unless the next context is to have the same age. */
static inline void leave_age(ww_seat *s)
{
	if (LIKELY(!s->ages))
		ww_end_(&s->handle);
	else if (s->ages > MET + 1)
		s->ages--;
	else
		stop_rest(s);
}

#endif
