//! What `transaction!` calls, each by its path: so no method of a trait that its caller has comes before one of these. None of
//! them is unsafe, whoever calls it: a `Tx` comes only from a context that has begun, and borrows that exclusively.

use super::body::Body;
use super::{Context, Tx};
use crate::{Class, Error};
use core::future::Future;
use core::ops::ControlFlow;
use core::task::Poll;

/// A context as `transaction!` has it: made for this one transaction, or the caller's.
pub trait Attempts {
    type Class: Class;

    fn context(&mut self) -> &mut Context<Self::Class>;

    /// The transaction has succeeded.
    fn succeeded(&mut self) {}
}

impl<C: Class> Attempts for Context<C> {
    type Class = C;

    #[inline]
    fn context(&mut self) -> &mut Context<C> {
        self
    }
}

/// A context of the caller's during one transaction, which may be dropped at any point.
pub struct Kept<'c, C: Class>(&'c mut Context<C>);

impl<'c, C: Class> Kept<'c, C> {
    pub fn new(context: &'c mut Context<C>) -> Self {
        Kept(context)
    }
}

impl<C: Class> Attempts for Kept<'_, C> {
    type Class = C;

    #[inline]
    fn context(&mut self) -> &mut Context<C> {
        self.0
    }

    /// The next transaction is another one.
    fn succeeded(&mut self) {
        *self.0 = Context::new();
    }
}

impl<C: Class> Drop for Kept<'_, C> {
    fn drop(&mut self) {
        self.0.release_all();
    }
}

/// Starts an attempt, if nothing is to be waited for; else `wait` does.
#[inline]
#[track_caller]
pub fn begin<A: Attempts>(of: &mut A) -> Poll<Result<&Tx<A::Class>, Error>> {
    let context = of.context();
    context.begin_now().map_ok(|()| &context.tx)
}

#[cold]
pub fn wait<A: Attempts>(of: &mut A) -> impl Future<Output = Result<&Tx<A::Class>, Error>> + use<'_, A> {
    let context = of.context();
    async { context.wait().await.map(|()| &context.tx) }
}

/// The body of an attempt, of which `is_within` tells what it polls.
#[inline]
pub fn body<F: Future>(block: F) -> impl Future<Output = F::Output> {
    Body::new(block)
}

/// The result of the transaction, or that another attempt follows.
#[inline]
pub fn settle<A: Attempts, R, E: From<Error>>(of: &mut A, told: Result<R, E>) -> ControlFlow<Result<R, E>> {
    let told = of.context().settle(told);
    if matches!(told, ControlFlow::Break(Ok(_))) {
        of.succeeded();
    }
    told
}
