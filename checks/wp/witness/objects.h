/*
 * objects.h - a seat, its class, a mutex, and a context: real objects, of which witnesses prove what contracts ask for.  Each function of
 * these is read where it is called.
 */
static struct ww_pool w_pool;
static ww_seat w_seat;
static struct ww_mutex w_mutex;
static struct ww_acquire_ctx w_context;
static struct ww_how w_how;

/* The seat is at rest and has nothing, and the proved library a context by it, or not. */
static void w_seat_is(int context)
{
	w_seat.pool = &w_pool;
	w_seat.ages = context;
	w_pool.gone = 0;
	w_seat.slot = NULL;
	/*@ ghost the_seat = &w_seat.handle; */
	/*@ ghost core_context = context; */
	/*@ ghost core_call = NO_CALL; */
	/*@ ghost core_has = 0; */
	/*@ ghost core_holds = 0; */
	/*@ ghost core_told = 0; */
}

/* CVC4 isn't told that 0 has no bits: a state of none of these comes from outside, and witness_zero says that 0 is one. */
#define NO_BITS(state) (state & IS_PRELOCKED) == 0 && (state & WAITS_FIRST) == 0 && (state & IS_POLLED) == 0 && (state & HAS_TO_BACK_OFF) == 0
/*@ requires NO_BITS(state); assigns \nothing; */
static void wants_none(unsigned state) { (void)state; }
void witness_zero(void) { wants_none(0); /*@ check never: \false; */ }

static void w_mutex_is(void)
{
	w_mutex.ctx = NULL;
	w_mutex.pool = &w_pool;
	w_mutex.alone = NULL;
	w_mutex.number = 7;
	w_mutex.waiters = 0;
	/*@ ghost the_lock = 7; */
}

static void w_context_is(void)
{
	w_context.pool = &w_pool;
	w_context.own = &w_seat;
	w_context.gives = &w_seat;
	w_context.state = 0;
	w_context.acquired = 0;
	w_context.newest = NULL;
}

static void w_how_is(void)
{
	w_how.who = THREAD;
	w_how.visits = 0;
	w_how.until = NULL;
	w_how.asks = NULL;
}

/* The core's state, for what is said of two moments. */
static void w_core(int call, int has, int holds, int told)
{
	/*@ ghost core_call = call; */
	/*@ ghost core_of = 7; */
	/*@ ghost core_has = has; */
	/*@ ghost core_holds = holds; */
	/*@ ghost core_told = told; */
	/*@ ghost core_told_of = 7; */
}

/* The list of what a context acquired is of the mutex alone. */
#define ONE_NODE nodes == 1 && node(0) == &w_mutex && node(1) == \null && place(\null) == 1 && place(&w_mutex) == 0
