//! A graph that is resized while threads work on it. Its nodes have mutexes of their own, and so has the list of all
//! nodes; a thread locks a node and the neighbours that it finds there, while others put nodes in and take nodes out.

use std::sync::Arc;
use std::thread;
use ww_mutex::{class, ArcMutexGuard, Class, Error, Mutex, Tx};

class!(struct Graph: WoundWait);

/// Of two neighbours each names the other. One that was taken out has none.
struct Node {
    weight: u64,
    neighbours: Vec<Link>,
}

type Link = Arc<Mutex<Graph, Node>>;
type Held<'x> = ArcMutexGuard<'x, Graph, Node>;

/// A class has mutexes around values of any types.
static ALL: Mutex<Graph, Vec<Link>> = Mutex::new(Vec::new());

const THREADS: usize = 4;
const TIMES: usize = 3000;
const NODES: usize = 20;
const WEIGHT: u64 = 1000;

fn lock_neighbours<'x>(tx: &'x Tx<Graph>, node: &Held<'_>) -> Result<Vec<Held<'x>>, Error> {
    node.neighbours.iter().map(|neighbour| tx.lock_arc(neighbour)).collect()
}

/// Puts a new node between this one and its neighbours, with half of its weight.
fn grow(place: usize) -> Result<(), Error> {
    Graph::run(|tx| {
        let mut all = tx.lock(&ALL)?;
        let link = all[place % all.len()].clone();
        let mut node = tx.lock_arc(&link)?;
        let neighbours = lock_neighbours(tx, &node)?;
        let half = node.weight / 2;
        node.weight -= half;
        let mut links = node.neighbours.clone();
        links.push(link.clone());
        let new = Arc::new(Mutex::new(Node { weight: half, neighbours: links }));
        for mut neighbour in neighbours {
            neighbour.neighbours.push(new.clone());
        }
        node.neighbours.push(new.clone());
        all.push(new);
        Ok(())
    })
}

/// Takes a node out, whose first neighbour gets its weight.
fn shrink(place: usize) -> Result<(), Error> {
    Graph::run(|tx| {
        let mut all = tx.lock(&ALL)?;
        let place = place % all.len();
        let link = all[place].clone();
        let mut node = tx.lock_arc(&link)?;
        let mut neighbours = lock_neighbours(tx, &node)?;
        let Some(heir) = neighbours.first_mut() else { return Ok(()) };
        heir.weight += node.weight;
        for neighbour in &mut neighbours {
            neighbour.neighbours.retain(|other| !Arc::ptr_eq(other, &link));
        }
        node.neighbours.clear();
        all.swap_remove(place);
        Ok(())
    })
}

/// Gives some of a node's weight to its neighbours, if it is there still.
fn spread(place: usize) -> Result<(), Error> {
    Graph::run(|tx| {
        let all = tx.lock(&ALL)?;
        let link = all[place % all.len()].clone();
        // From here on others may resize the graph.
        drop(all);
        let mut node = tx.lock_arc(&link)?;
        for mut neighbour in lock_neighbours(tx, &node)? {
            let part = node.weight / 4;
            node.weight -= part;
            neighbour.weight += part;
        }
        Ok(())
    })
}

fn work(me: usize) -> Result<(), Error> {
    let mut drawn = me + 1;
    for k in 0..TIMES {
        drawn = drawn.wrapping_mul(6_364_136_223_846_793_005).wrapping_add(1_442_695_040_888_963_407);
        let place = drawn >> 33;
        match k % 8 {
            0 => grow(place)?,
            1 => shrink(place)?,
            _ => spread(place)?,
        }
    }
    Ok(())
}

fn main() {
    let first: Vec<Link> =
        (0..NODES).map(|_| Arc::new(Mutex::new(Node { weight: WEIGHT, neighbours: Vec::new() }))).collect();
    for (k, node) in first.iter().enumerate() {
        let (before, after) = (&first[(k + NODES - 1) % NODES], &first[(k + 1) % NODES]);
        node.lock().neighbours.extend([before.clone(), after.clone()]);
    }
    *ALL.lock() = first;
    thread::scope(|scope| {
        for me in 0..THREADS {
            scope.spawn(move || work(me).expect("without limits each body ends with all locks"));
        }
    });
    let all = std::mem::take(&mut *ALL.lock());
    let weight: u64 = all.iter().map(|node| node.lock().weight).sum();
    assert_eq!(weight, NODES as u64 * WEIGHT);
    for link in &all {
        let names = |other: &Link| other.lock().neighbours.iter().any(|back| Arc::ptr_eq(back, link));
        let neighbours = std::mem::take(&mut link.lock().neighbours);
        assert!(neighbours.iter().all(|neighbour| names(neighbour) || neighbour.lock().neighbours.is_empty()));
    }
    println!(
        "resize: {THREADS} threads resized the graph {TIMES} times and more, and its weight is {weight} as before"
    );
}
