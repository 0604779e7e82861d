/*
 * core.h - what the proved library's clauses come to, for one seat and one lock, whichever these are: so what is proved of
 * them is proved of each.  Assumed here, and proved there, for any steps of others meanwhile.
 *
 * Beneath each clause, quoted from crates/, stands what it says here.  check_wp looks that the quotes are exact, that none
 * of a relation's lines is missing, and that exports.rt gives the function this relation.
 */
#ifndef WP_CORE_H
#define WP_CORE_H
#include "compiler.h"
#ifndef WP_INLINE
#define WW_NO_INLINE
#endif
#include "../debug/debug.h"
#undef NOTE
#define NOTE(...) ((void)0) /* only its size is asked for without debugging, at which Frama-C stops */
/*@ // The list of a context, whichever it is, the newest first: node(0) to node(nodes - 1), and then NULL.
    axiomatic List {
	logic struct ww_mutex *node(integer k) reads \nothing;
	logic integer nodes reads \nothing;
	logic integer place(struct ww_mutex *m) reads \nothing; // where the mutex is in the list
    } */
#include "../lock/lock.h"

// Codes.antt: code_of Done = pos 0
// Codes.antt: code_of Again = pos 1
// Codes.antt: code_of Sleeps = pos 3
// Codes.antt: code_of Awaits = pos 5
// Codes.antt: code_of Busy = negsuc 15
// Codes.antt: code_of Invalid = negsuc 21
// Codes.antt: code_of Already = negsuc 113
// Codes.antt: code_of NoSpace = negsuc 27
// Codes.antt: code_of (Deadlk k) = negsuc 34
// Codes.antt: code_of (Interrupted by) = negsuc 3
_Static_assert(WW_AGAIN == 1 && WW_SLEEPS == 3 && WW_AWAITS == 5 && EBUSY == 16 && EINVAL == 22 && EALREADY == 114 &&
	       ENOSPC == 28 && EDEADLK == 35 && EINTR == 4, "as code_of");

enum { NO_CALL, LOCKS, UNLOCKS };
#define CORE core_has, core_holds, core_told, core_told_of, core_call, core_of
/*@ ghost
  ww_handle *the_seat;	// a handle; below, its desk's Situation s:
  uint32_t the_lock;	// and a lock
  int core_call;	// s.turn: NO_CALL is at.Rests, LOCKS at.Wants and at.Looks, UNLOCKS at.Gives,
  uint32_t core_of;	// of this lock
  int core_has;		// s.held: whether the_lock is in it, 0 or 1
  size_t core_holds;	// s.held: how many there are
  int core_context;	// s.stamp: whether it isn't 0
  int core_told;	// s.told: 0 is None, 1 Some
  uint32_t core_told_of; // this lock
*/
/*@
  predicate rests = core_call == NO_CALL;
  predicate goes = core_call == LOCKS || core_call == UNLOCKS;
  // s' = s, but for what a view, `wakes` and counts say
  predicate same_turn{A, B} = \at(core_call, A) == \at(core_call, B) && \at(core_of, A) == \at(core_of, B);
  predicate same_told{A, B} = \at(core_told, A) == \at(core_told, B) && \at(core_told_of, A) == \at(core_told_of, B);
  predicate same_held{A, B} = \at(core_has, A) == \at(core_has, B) && \at(core_holds, A) == \at(core_holds, B);
  predicate same{A, B} = same_turn{A, B} && same_told{A, B} && same_held{A, B} && \at(core_context, A) == \at(core_context, B);
  // held = s.held ++ n
  predicate more_held{A, B}(uint32_t n) = \at(core_holds, B) == \at(core_holds, A) + 1 &&
	\at(core_has, B) == (n == \at(the_lock, A) ? 1 : \at(core_has, A));
  // held = without n s.held, where n is in it
  predicate less_held{A, B}(uint32_t n) = \at(core_holds, A) == \at(core_holds, B) + 1 &&
	\at(core_has, B) == (n == \at(the_lock, A) ? 0 : \at(core_has, A)) &&
	(\at(core_has, B) == 1 ==> \at(core_holds, B) > 0);
  // is_among n s.held
  predicate lacks(uint32_t n) = n == the_lock ==> core_has == 0;
  predicate holds(uint32_t n) = core_holds > 0 && (n == the_lock ==> core_has == 1);
    // Answers.antt: HasLock s n s' = StaysOut s s' × (s' ≡ record s { held = s.held ++ n ∷ []; told = None; tries = s.tries
    //     + 1; takes = s.takes + 1; view = s'.view })
  predicate has_lock{A, B}(uint32_t n) = more_held{A, B}(n) && \at(core_told, B) == 0 && same_turn{A, B};
    // Answers.antt: HasGivenBack s n s' = StaysOut s s' × (s' ≡ record s { held = without n s.held; view = s'.view })
  predicate has_given_back{A, B}(uint32_t n) = less_held{A, B}(n) && same_told{A, B} && same_turn{A, B};
*/

/*@ // what a handle says of its seat
    // slot.rt: bare: { mode ≡ 4 → knows is_bare slot.desk ≡ true }
    // Modes.antt: is_bare s = not (s.left == 0) && (is_at_rest s.turn && (not (s.stamp == 0) && (is_empty s.held && (not
    //     s.is_done && is_none s.told))))
    predicate is_at_mode(integer mode) = mode == WW_BARE_ ==> rests && core_context == 1 && core_holds == 0 && core_told == 0;
*/

/*@
    // exports.rt ww_try_: ensures { IsCall (λ s a t. IsTryAnswer s lock a t) seat.old.slot.desk result seat.new.slot.desk }
    requires seat == the_seat;
    assigns seat->mode, seat->below, core_has, core_holds, core_told;
    // Answers.antt: IsTryAnswer s n Done s' = IsTryable s n × HasLock s n s'
    ensures \result == 0 ==> rests && lacks{Old}(lock) && has_lock{Old, Here}(lock);
    // Answers.antt: IsTryAnswer s n Busy s' = ((is_at_rest s.turn ≡ false) × (s' ≡ s)) ⊎ (IsTryable s n × TriedInVain s s')
    ensures \result == -EBUSY ==> same{Old, Here};
    // Answers.antt: IsTryAnswer s n Already s' = IsHeldAtRest s n × (s' ≡ s)
    ensures \result == -EALREADY ==> rests && holds(lock) && same{Old, Here};
    // Answers.antt: IsTryAnswer s n Invalid s' = IsBarred s n × (s' ≡ s)
    ensures \result == -EINVAL ==> rests && lacks(lock) && same{Old, Here};
    // Answers.antt: IsTryAnswer s n _ s' = ⊥
    ensures \result == 0 || \result == -EBUSY || \result == -EALREADY || \result == -EINVAL; */
int32_t ww_try_(ww_handle *seat, uint32_t lock);

/*@
    // exports.rt ww_lock_: ensures { IsCall (λ s a t. IsLockAnswer s lock (waits_of heeds) a t) seat.old.slot.desk result
    //     seat.new.slot.desk }
    requires seat == the_seat;
    assigns seat->mode, seat->below, core_has, core_holds, core_told, core_call, core_of;
    // Answers.antt: IsLockAnswer s n waits Done s' = IsTryable s n × HasLock s n s'
    ensures \result == 0 ==> rests && lacks{Old}(lock) && has_lock{Old, Here}(lock);
    // Answers.antt: IsLockAnswer s n waits Again s' = IsTryable s n × StaysOut s s' × (s' ≡ record s { turn = at.Wants n
    //     Came waits; tries = s.tries + 1; view = s'.view })
    ensures \result == WW_AGAIN ==> rests{Old} && lacks{Old}(lock) && core_call == LOCKS && core_of == lock &&
	same_held{Old, Here} && same_told{Old, Here};
    // Answers.antt: IsLockAnswer s n waits Busy s' = (is_at_rest s.turn ≡ false) × (s' ≡ s)
    ensures \result == -EBUSY ==> !rests && same{Old, Here};
    // Answers.antt: IsLockAnswer s n waits Already s' = IsHeldAtRest s n × (s' ≡ s)
    ensures \result == -EALREADY ==> rests && holds(lock) && same{Old, Here};
    // Answers.antt: IsLockAnswer s n waits Invalid s' = IsBarred s n × (s' ≡ s)
    ensures \result == -EINVAL ==> rests && lacks(lock) && same{Old, Here};
    // Answers.antt: IsLockAnswer s n waits _ s' = ⊥
    ensures \result == 0 || \result == WW_AGAIN || \result == -EBUSY || \result == -EALREADY || \result == -EINVAL; */
int32_t ww_lock_(ww_handle *seat, uint32_t lock, bool heeds);

/*@
    // exports.rt ww_lock_slow_: ensures { IsCall (λ s a t. IsSlowAnswer s lock (waits_of heeds) a t) seat.old.slot.desk
    //     result seat.new.slot.desk }
    requires seat == the_seat;
    assigns seat->mode, seat->below, core_has, core_holds, core_told, core_call, core_of;
    // Answers.antt: IsSlowAnswer s n waits Done s' = (s.told ≡ Some n) × (s.held ≡ []) × IsTryable s n × HasLock s n s'
    ensures \result == 0 ==> \old(core_told) == 1 && \old(core_told_of) == lock && \old(core_holds) == 0 && rests &&
	lacks{Old}(lock) && has_lock{Old, Here}(lock);
    // Answers.antt: IsSlowAnswer s n waits Again s' = (s.told ≡ Some n) × (s.held ≡ []) × IsLockAnswer s n waits Again s'
    ensures \result == WW_AGAIN ==> \old(core_told) == 1 && \old(core_told_of) == lock && \old(core_holds) == 0 && rests{Old} &&
	lacks{Old}(lock) && core_call == LOCKS && core_of == lock && same_held{Old, Here} && same_told{Old, Here};
    // Answers.antt: IsSlowAnswer s n waits Busy s' = (is_at_rest s.turn ≡ false) × (s' ≡ s)
    ensures \result == -EBUSY ==> !rests && same{Old, Here};
    // Answers.antt: IsSlowAnswer s n waits Invalid s' = (is_at_rest s.turn ≡ true) × ((s.told ≢ Some n) ⊎ ((s.held ≢ []) ⊎
    //     IsBarred s n)) × (s' ≡ s)
    ensures \result == -EINVAL ==> rests && same{Old, Here};
    // Answers.antt: IsSlowAnswer s n waits _ s' = ⊥
    ensures \result == 0 || \result == WW_AGAIN || \result == -EBUSY || \result == -EINVAL; */
int32_t ww_lock_slow_(ww_handle *seat, uint32_t lock, bool heeds);

/*@
    // exports.rt ww_unlock_: ensures { IsCall (λ s a t. IsUnlockAnswer s lock a t) seat.old.slot.desk result
    //     seat.new.slot.desk }
    // Exports.antt: IsCall answers None code after = (code ≡ negsuc 21) × (after ≡ None)
    requires seat == the_seat || seat->at == \null;
    ensures seat != the_seat ==> \result == -EINVAL && same{Old, Here};
    // Exports.antt: IsCall answers (Some s) code after = (a : Answer) × (s' : Situation) × (after ≡ Some s') × answers s a
    //     s' × (code ≡ code_of a)
    assigns seat->mode, seat->below, core_has, core_holds, core_call, core_of;
    // Answers.antt: IsUnlockAnswer s n Done s' = IsHeldAtRest s n × HasGivenBack s n s'
    ensures seat == the_seat && \result == 0 ==> rests && holds{Old}(lock) && has_given_back{Old, Here}(lock);
    // Answers.antt: IsUnlockAnswer s n Again s' = IsHeldAtRest s n × HasKept s s' × HasTurned s (at.Gives n) s'
    ensures seat == the_seat && \result == WW_AGAIN ==> rests{Old} && holds{Old}(lock) && core_call == UNLOCKS && core_of == lock && same_held{Old, Here};
    // Answers.antt: IsUnlockAnswer s n Busy s' = (is_at_rest s.turn ≡ false) × (s' ≡ s)
    ensures seat == the_seat && \result == -EBUSY ==> !rests && same{Old, Here};
    // Answers.antt: IsUnlockAnswer s n Invalid s' = (is_at_rest s.turn ≡ true) × (is_among n s.held ≡ false) × (s' ≡ s)
    ensures seat == the_seat && \result == -EINVAL ==> rests && lacks(lock) && same{Old, Here};
    // Answers.antt: IsUnlockAnswer s n _ s' = ⊥
    ensures \result == 0 || \result == WW_AGAIN || \result == -EBUSY || \result == -EINVAL; */
int32_t ww_unlock_(ww_handle *seat, uint32_t lock);

/*@
    // exports.rt ww_go_on_: ensures { IsCall goes_on seat.old.slot.desk result seat.new.slot.desk }
    // Exports.antt: goes_on s a s' = IsNextAnswer s.turn s a s' × BooksWakes s s' × CountsNaps s a s'
    requires seat == the_seat;
    assigns seat->mode, seat->below, core_has, core_holds, core_told, core_told_of, core_call;
    // Answers.antt: IsNextAnswer at.Rests s a s' = (a ≡ Invalid) × (s' ≡ s)
    ensures \old(core_call) == NO_CALL ==> \result == -EINVAL && same{Old, Here};
    // Answers.antt: IsNextAnswer (at.Wants n arrival waits) s a s' = IsWaitAnswer s n waits a s'
    // Answers.antt: IsNextAnswer (at.Looks n arrival waits) s a s' = IsWaitAnswer s n waits a s'
    // Answers.antt: IsWaitAnswer s n waits Awaits s' = IsShutOut s s'
    // Answers.antt: IsWaitAnswer s n waits Again s' = IsLooking n waits s'.turn × (s'.view.inside ≡ suc n) × MadeProgress s
    //     s' × WakesCondemned s s' × (s' ≡ record s { turn = s'.turn; wakes = s'.wakes; view = s'.view })
    // Answers.antt: IsWaitAnswer s n waits Sleeps s' = WakesCondemned s s' × MadeProgress s s' × (waits ≡ UntilCancelled →
    //     s'.view.uncancelled ≡ true) × (s' ≡ record s { turn = at.Wants n Woken waits; wakes = s'.wakes; view = s'.view })
    ensures \old(core_call) == LOCKS && \result > 0 ==> same{Old, Here};
    // Answers.antt: IsWaitAnswer s n waits Done s' = WakesCondemned s s' × (s' ≡ record s { turn = at.Rests; held = s.held
    //     ++ n ∷ []; told = None; takes = s.takes + 1; wakes = s'.wakes; view = s'.view; })
    ensures \old(core_call) == LOCKS && \result == 0 ==> rests && more_held{Old, Here}(core_of) && core_told == 0;
    // Answers.antt: IsWaitAnswer s n waits (Deadlk k) s' = WakesCondemned s s' × HasToBackOff s n k s'
    // Answers.antt: pub record HasToBackOff (s : Situation) (n k : ℕ) (s' : Situation) : Type 0 where pub context : 0 < k
    //     pub older : k < s.stamp pub holds : 1 ≤ length s.held pub met : HasMet n k s'.view pub now : s' ≡ record s { turn =
    //     at.Rests; told = Some n; deaths = s.deaths + 1; wakes = s'.wakes; view = s'.view }
    ensures \old(core_call) == LOCKS && \result == -EDEADLK ==> core_context == 1 && core_holds > 0 && same_held{Old, Here} &&
	rests && core_told == 1 && core_told_of == core_of;
    // Answers.antt: IsWaitAnswer s n waits (Interrupted by) s' = WakesCondemned s s' × (waits ≡ UntilCancelled) × (s' ≡
    //     record s { turn = at.Rests; interrupted = (n, by) ∷ s.interrupted; wakes = s'.wakes; view = s'.view })
    ensures \old(core_call) == LOCKS && \result == -EINTR ==> rests && same_held{Old, Here} && same_told{Old, Here};
    // Answers.antt: IsWaitAnswer s n waits _ s' = ⊥
    ensures \old(core_call) == LOCKS ==> \result == WW_AWAITS || \result == WW_AGAIN || \result == WW_SLEEPS || \result == 0 ||
	\result == -EDEADLK || \result == -EINTR;
    // Answers.antt: IsNextAnswer (at.Gives n) s a s' = IsGiveAnswer s n a s'
    // Answers.antt: IsGiveAnswer s n Awaits s' = IsShutOut s s'
    ensures \old(core_call) == UNLOCKS && \result == WW_AWAITS ==> same{Old, Here};
    // Answers.antt: IsGiveAnswer s n Done s' = WakesHeir s s' × (s' ≡ record s { turn = at.Rests; held = without n s.held;
    //     wakes = s'.wakes; view = s'.view })
    ensures \old(core_call) == UNLOCKS && \result == 0 ==> rests && less_held{Old, Here}(core_of) && same_told{Old, Here};
    // Answers.antt: IsGiveAnswer s n _ s' = ⊥
    ensures \old(core_call) == UNLOCKS ==> \result == WW_AWAITS || \result == 0; */
int32_t ww_go_on_(ww_handle *seat);

/*@
    // exports.rt ww_has_: ensures { IsCall (λ s a t. IsHasAnswer s lock a t) seat.old.slot.desk result seat.new.slot.desk }
    requires seat == the_seat;
    assigns \nothing;
    // Answers.antt: IsHasAnswer s n Done s' = IsHeldAtRest s n × (s' ≡ s)
    ensures \result == 0 ==> rests && holds(lock);
    // Answers.antt: IsHasAnswer s n Busy s' = (is_at_rest s.turn ≡ false) × (s' ≡ s)
    ensures \result == -EBUSY ==> !rests;
    // Answers.antt: IsHasAnswer s n Invalid s' = (is_at_rest s.turn ≡ true) × (is_among n s.held ≡ false) × (s' ≡ s)
    ensures \result == -EINVAL ==> rests && lacks(lock);
    // Answers.antt: IsHasAnswer s n _ s' = ⊥
    ensures \result == 0 || \result == -EBUSY || \result == -EINVAL; */
int32_t ww_has_(ww_handle *seat, uint32_t lock);

/*@
    // exports.rt ww_is_free_: ensures { IsCall (λ s a t. IsFreeAnswer s lock a t) seat.old.slot.desk result
    //     seat.new.slot.desk }
    requires seat == the_seat;
    assigns \nothing;
    // Answers.antt: IsFreeAnswer s n Done s' = (is_at_rest s.turn ≡ true) × HasLockNumber s n × (is_among n s.held ≡ false)
    //     × HasLookedAt s n 0 s'
    ensures \result == 0 ==> rests && lacks(lock);
    // Answers.antt: IsFreeAnswer s n Busy s' = ((is_at_rest s.turn ≡ false) × (s' ≡ s)) ⊎ ((is_at_rest s.turn ≡ true) ×
    //     HasLockNumber s n × ((word : ℕ) × (word ≢ 0) × HasLookedAt s n word s'))
    // Answers.antt: IsFreeAnswer s n Invalid s' = (is_at_rest s.turn ≡ true) × (s.size ≤ n) × (s' ≡ s)
    // Answers.antt: IsFreeAnswer s n _ s' = ⊥
    ensures \result == 0 || \result == -EBUSY || \result == -EINVAL; */
int32_t ww_is_free_(ww_handle *seat, uint32_t lock);

/*@
    // exports.rt ww_begin_: ensures { IsCall IsBeginAnswer seat.old.slot.desk result seat.new.slot.desk }
    requires seat == the_seat;
    assigns seat->mode, seat->below, core_context, core_told;
    // Answers.antt: IsBeginAnswer s Done s' = (is_at_rest s.turn ≡ true) × (s.stamp ≡ 0) × (s.held ≡ []) × (1 ≤ s.left) × (1
    //     ≤ s'.stamp) × StaysOut s s' × (s' ≡ record s { left = s.left - 1; draws = s.draws + 1; stamp = s'.stamp; is_done =
    //     false; told = None; view = s'.view })
    ensures \result == 0 ==> rests && \old(core_context) == 0 && core_holds == 0 && core_context == 1 && core_told == 0;
    // Answers.antt: IsBeginAnswer s Busy s' = (is_at_rest s.turn ≡ false) × (s' ≡ s)
    ensures \result == -EBUSY ==> !rests && same{Old, Here};
    // Answers.antt: IsBeginAnswer s Invalid s' = (is_at_rest s.turn ≡ true) × ((s.stamp ≢ 0) ⊎ (s.held ≢ [])) × (s' ≡ s)
    ensures \result == -EINVAL ==> rests && (core_context == 1 || core_holds > 0) && same{Old, Here};
    // Answers.antt: IsBeginAnswer s NoSpace s' = (is_at_rest s.turn ≡ true) × (s.stamp ≡ 0) × (s.held ≡ []) × (((s.left ≡ 0)
    //     × (s' ≡ s)) ⊎ ((16 < s.seats) × (1 ≤ s.left) × (s' ≡ record s { left = s.left - 1; draws = s.draws + 1 })))
    ensures \result == -ENOSPC ==> rests && core_context == 0 && core_holds == 0 && same{Old, Here};
    // Answers.antt: IsBeginAnswer s _ s' = ⊥
    ensures \result == 0 || \result == -EBUSY || \result == -EINVAL || \result == -ENOSPC; */
int32_t ww_begin_(ww_handle *seat);

/*@
    // exports.rt ww_end_: ensures { IsCall IsEndAnswer seat.old.slot.desk result seat.new.slot.desk }
    requires seat == the_seat;
    assigns seat->mode, seat->below, core_context, core_told;
    // Answers.antt: IsEndAnswer s Done s' = (is_at_rest s.turn ≡ true) × (s.stamp ≢ 0) × (s.held ≡ []) × StaysOut s s' × (s'
    //     ≡ record s { stamp = 0; is_done = false; told = None; view = s'.view })
    ensures \result == 0 ==> rests && \old(core_context) == 1 && core_holds == 0 && core_context == 0 && core_told == 0;
    // Answers.antt: IsEndAnswer s Busy s' = (is_at_rest s.turn ≡ false) × (s' ≡ s)
    ensures \result == -EBUSY ==> !rests && same{Old, Here};
    // Answers.antt: IsEndAnswer s Invalid s' = (is_at_rest s.turn ≡ true) × ((s.stamp ≡ 0) ⊎ (s.held ≢ [])) × (s' ≡ s)
    ensures \result == -EINVAL ==> rests && (core_context == 0 || core_holds > 0) && same{Old, Here};
    // Answers.antt: IsEndAnswer s _ s' = ⊥
    ensures \result == 0 || \result == -EBUSY || \result == -EINVAL; */
int32_t ww_end_(ww_handle *seat);

/*@
    // exports.rt ww_heed_: ensures { IsCall IsHeedAnswer seat.old.slot.desk result seat.new.slot.desk }
    requires seat == the_seat;
    assigns seat->mode, seat->below; // until_cancelled s.turn waits for the same lock
    // Answers.antt: IsHeedAnswer s Done s' = (waits_outside s.turn ≡ true) × (s' ≡ record s { turn = until_cancelled s.turn
    //     })
    // Answers.antt: IsHeedAnswer s Busy s' = (is_at_rest s.turn ≡ false) × (waits_outside s.turn ≡ false) × (s' ≡ s)
    // Answers.antt: IsHeedAnswer s Invalid s' = (is_at_rest s.turn ≡ true) × (s' ≡ s)
    // Answers.antt: IsHeedAnswer s _ s' = ⊥
    */
int32_t ww_heed_(ww_handle *seat);

/*@
    // exports.rt ww_cancel_: ensures { IsCall (cancels victim) seat.old.slot.desk result seat.new.slot.desk }
    // Exports.antt: cancels u s a s' = IsCancelAnswer s u a s' × BooksWakes s s'
    requires seat == the_seat;
    assigns seat->mode, seat->below; // `cancelled`, `wakes`, `pendings` and the view aren't spoken of here
    // Answers.antt: IsCancelAnswer s u Done s' = (is_at_rest s.turn ≡ true) × (u < s.seats) × WakesAlso s u s' × (s' ≡
    //     record s { cancelled = u ∷ s.cancelled; wakes = s'.wakes })
    // Answers.antt: IsCancelAnswer s u Already s' = (is_at_rest s.turn ≡ true) × (u < s.seats) × (s' ≡ record s { pendings =
    //     s.pendings + 1; view = found_pending s.view })
    // Answers.antt: IsCancelAnswer s u Busy s' = (is_at_rest s.turn ≡ false) × (s' ≡ s)
    // Answers.antt: IsCancelAnswer s u Invalid s' = (is_at_rest s.turn ≡ true) × (s.seats ≤ u) × (s' ≡ s)
    // Answers.antt: IsCancelAnswer s u _ s' = ⊥
    */
int32_t ww_cancel_(ww_handle *seat, uint16_t victim);

/* Of the words that these answer nothing is said, and they change none of the above. */
/*@ requires seat == the_seat; assigns seat->mode, seat->below; */
int32_t ww_next_wake_(ww_handle *seat);
/*@ assigns \nothing; */
int32_t ww_look_(ww_handle *seat, uint32_t lock);
/*@ assigns \nothing; */
int32_t ww_is_wounded_(ww_handle *seat);

#endif
