//! The load test: saves and loads per second on a shelf of processes on this machine, for every t.

use crate::call::{self, Outcome, Scope};
use crate::card::Card;
use crate::keys::ScopeKeys;
use crate::servers;
use crate::story::shelf::{Running, Shelf};
use std::net::SocketAddr;
use std::time::{Duration, Instant};

/// A box keeps 32 saves in its life.
const SAVES: usize = 32;
const PATIENCE: Duration = Duration::from_secs(20);
const RECORD: usize = 1_024;

/// Prints a row for each t, for one scope and for four at a time: calls per second, and how much longer one takes than with t = 1.
pub fn load(seconds: Duration) -> Result<(), String> {
    println!("cards and states in {}, records of {RECORD} bytes", std::env::temp_dir().display());
    for scopes in [1, 4] {
        println!("scopes  t  boxes  saves/s  loads/s  ms to save  ms to load  save to t = 1  load to t = 1");
        let mut first = None;
        for t in 1..=4 {
            let (saves, loads) = measure(t, scopes, seconds)?;
            let (to_save, to_load) = (1_000.0 * scopes as f64 / saves, 1_000.0 * scopes as f64 / loads);
            let (save_1, load_1) = *first.get_or_insert((to_save, to_load));
            let (boxes, save, load) = (servers(t), to_save / save_1, to_load / load_1);
            println!("{scopes:>6} {t:>2} {boxes:>6} {saves:>8.0} {loads:>8.0} {to_save:>11.2} {to_load:>11.2} {save:>14.1} {load:>14.1}");
        }
    }
    Ok(())
}

/// Saves and loads per second with so many scopes at a time.
fn measure(t: usize, scopes: usize, seconds: Duration) -> Result<(f64, f64), String> {
    let shelf = Shelf::new(t)?;
    let started = (1..=servers(t)).map(|server| shelf.start_box(server)).collect::<Result<Vec<_>, _>>()?;
    let (_running, boxes): (Vec<Running>, Vec<SocketAddr>) = started.into_iter().unzip();
    let mut each = (1..=scopes).map(|number| new_scope(&shelf, number)).collect::<Result<Vec<_>, _>>()?;
    let saves = rate(&mut each, |scope| {
        (0..SAVES / scopes).try_for_each(|k| save(scope, &boxes, k)).map(|()| SAVES / scopes)
    })?;
    let loads = rate(&mut each, |scope| {
        let end = Instant::now() + seconds;
        let mut done = 0;
        while Instant::now() < end {
            load_once(scope, &boxes)?;
            done += 1;
        }
        Ok(done)
    })?;
    Ok((saves, loads))
}

fn new_scope(shelf: &Shelf, number: usize) -> Result<Scope, String> {
    Scope::create(Card::lock(&shelf.state(number))?, ScopeKeys::read(&shelf.scope_key(number))?)
}

/// How many calls a second all scopes together do, each in a thread of its own.
fn rate(scopes: &mut [Scope], calls: impl Fn(&mut Scope) -> Result<usize, String> + Sync) -> Result<f64, String> {
    let begun = Instant::now();
    let done = std::thread::scope(|threads| {
        let all: Vec<_> = scopes.iter_mut().map(|scope| threads.spawn(|| calls(scope))).collect();
        all.into_iter().map(|one| one.join().map_err(|_| "a scope stopped".to_owned())?).sum::<Result<usize, String>>()
    })?;
    Ok(done as f64 / begun.elapsed().as_secs_f64())
}

fn save(scope: &mut Scope, boxes: &[SocketAddr], k: usize) -> Result<(), String> {
    scope.begin_save(&[k as u8; RECORD])?;
    match scope.finish(&call::socket(boxes)?, boxes, PATIENCE)? {
        Outcome::Saved(_) => Ok(()),
        other => Err(format!("a save ended as {other:?}")),
    }
}

fn load_once(scope: &mut Scope, boxes: &[SocketAddr]) -> Result<(), String> {
    scope.begin_load()?;
    match scope.finish(&call::socket(boxes)?, boxes, PATIENCE)? {
        Outcome::Shown(_, record) if record.len() == RECORD => Ok(()),
        other => Err(format!("a load ended as {other:?}")),
    }
}
