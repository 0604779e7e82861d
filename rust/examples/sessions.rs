//! A server whose requests have deadlines. A request takes the session of who sends a message and those of all whom that
//! one follows; one that can't have them in time is answered "busy", and the end of the server calls off what still waits.

use std::sync::atomic::{AtomicUsize, Ordering};
use std::thread;
use std::time::Duration;
use ww_mutex::{class, Canceller, Class, Error, Mutex};

class!(struct Sessions: WoundWait, mutexes = 1000, contexts = 32);

struct Session {
    follows: Vec<usize>,
    received: usize,
}

struct Server {
    sessions: Vec<Mutex<Sessions, Session>>,
    ends: Canceller,
}

const SESSIONS: usize = 24;
const WORKERS: usize = 8;
const REQUESTS: usize = 2000;
const IN_TIME: Duration = Duration::from_millis(5);

impl Server {
    /// How many received the message.
    fn send(&self, sender: usize, limit: Duration) -> Result<usize, Error> {
        Sessions::options().timeout(limit).cancelled_by(&self.ends).run(|tx| {
            let session = tx.lock(&self.sessions[sender])?;
            let mut followed = tx.lock_each(session.follows.iter().map(|&other| &self.sessions[other]))?;
            // All of them are there: what is changed from here on is changed once.
            for other in &mut followed {
                other.received += 1;
            }
            Ok(followed.len())
        })
    }

    /// How many messages were received, and how many requests were answered "busy".
    fn work(&self, next: &AtomicUsize) -> (usize, usize) {
        let (mut received, mut busy) = (0, 0);
        loop {
            let request = next.fetch_add(1, Ordering::Relaxed);
            if request >= REQUESTS {
                return (received, busy);
            }
            match self.send(request * 7 % SESSIONS, IN_TIME) {
                Ok(count) => received += count,
                Err(Error::TimedOut) => busy += 1,
                Err(error) => panic!("{error}"),
            }
        }
    }
}

fn main() {
    let session = |k| {
        let follows = (1..=3).map(|step| (k + 5 * step) % SESSIONS).collect();
        Mutex::new(Session { follows, received: 0 })
    };
    let server = Server { sessions: (0..SESSIONS).map(session).collect(), ends: Canceller::new() };

    // Somebody keeps a session for longer than a request waits.
    let next = AtomicUsize::new(0);
    let (received, busy) = thread::scope(|scope| {
        let workers: Vec<_> = (0..WORKERS).map(|_| scope.spawn(|| server.work(&next))).collect();
        let kept = server.sessions[0].lock();
        thread::sleep(4 * IN_TIME);
        drop(kept);
        let answers = workers.into_iter().map(|worker| worker.join().unwrap());
        answers.fold((0, 0), |(received, busy), (more, other)| (received + more, busy + other))
    });
    assert_eq!(received, 3 * (REQUESTS - busy));
    assert_eq!(received, server.sessions.iter().map(|session| session.lock().received).sum());

    // A request that would wait for an hour, and the server ends.
    let kept = server.sessions[0].lock();
    thread::scope(|scope| {
        let request = scope.spawn(|| server.send(0, Duration::from_secs(3600)));
        server.ends.cancel();
        assert_eq!(request.join().unwrap(), Err(Error::Cancelled));
    });
    drop(kept);
    println!("sessions: {WORKERS} workers answered {REQUESTS} requests, each in time or as busy, and the last was called off");
}
