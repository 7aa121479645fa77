#!/usr/bin/env python3
"""Measures how long the goals of a board are claimed and deposited.

    boards.py [--program FILE]

One worker settles 6,553 goals, and then 65,536, with different keys of 1,000 bytes; the search answers at
once; in seconds of a processor. Then 65,536 goals are settled by 1, 2 and 4 threads, by a search that answers
at once and by one that takes some 80 microseconds, while the opener sleeps until each is answered: seconds,
turns a second (a claim and a deposit for each goal; the opener's looks are not counted), and seconds of a
processor. What it takes to make the goals and to open the board with them is measured apart and taken off.
Last, four workers have nothing to do for ten seconds.

The measuring program is built as those of measured.py are; with --program a file that was built before is
run; --make FOLDER only writes its workspace, for a build by hand.
"""
import os
import sys
import tempfile
import time

import measured

NAME = "boarded"
STANDS_ON = "atomic_table bv_base board_core turn_lock obligation_board"

PROGRAM = """//! Opens a board with so many goals, and settles them as the word says.
#![tactic(auto)]

ghost use Rattle.std.specs.Prelude.{◌≡◌};
ghost use Rattle.std.specs.Arc.{arc_value};
ghost use Rattle.turn_lock.specs.Lock.{number};
ghost use Rattle.obligation_board.specs.Passes.{IsPassOf};

use bv_base::{Answered, Question};
use obligation_board::{OpenGate, Pass, Prover, SharedBoard, work};
use std::alloc::{AllocError, Global};
use std::env;
use std::io;
use std::rt::Clock;
use std::sync::atomic::{AtomicU64, Ordering};
use std::sync::{Arc, Wait};
use std::thread;
use std::thread::Threads;
use std::time::Duration;

/// A question with a key.
#[derive(Drop)]
struct Asked {
    key: Vec<u8>,
}

impl Question for Asked {
    ghost key = { λ q. q.key.items };

    fn key(&self) -> &[u8] {
        &self.key
    }
}

#[derive(Drop)]
struct Found {
    asked: Arc<Asked, Global>,
}

impl Answered for Found {
    type Q = Asked;

    ghost asked = { λ f. arc_value f.asked };

    ghost right = { λ _. Unit {0} };

    fn question(&self) -> &Arc<Asked, Global> {
        &self.asked
    }
}

/// Answers so many questions, each after so many looks at a number, and says of the next that there is no memory, which
/// ends the worker.
#[derive(Drop)]
struct Counting {
    left: AtomicU64,
    looks: u64,
}

// So many looks at a number, and its last digit.
fn look_on(number: &AtomicU64, looks: u64) -> u64 {
    let mut last = 0;
    for _ in 0..looks {
        last = number.load(Ordering::SeqCst) % 10;
    }
    last
}

impl Prover for Counting {
    type A = Found;

    ghost gives = { λ _ q f. arc_value f.asked ≡ q };

    fn answer(&self, asked: &Arc<Asked, Global>) -> Result<Found, AllocError> {
        if self.left.fetch_sub(1, Ordering::SeqCst) == 0 {
            return Err(AllocError);
        }
        if look_on(&self.left, self.looks) > 9 {
            return Err(AllocError);
        }
        let asked = asked.clone()?;
        Ok(Found { asked })
    }
}

// A key of 1,000 bytes, which ends with this number.
fn key(alloc: Global, number: u64) -> Result<Vec<u8>, AllocError> {
    let front = [b'k'; 992];
    let mut key = Vec::from_slice(alloc, &front)?;
    key.extend_from_slice(&number.to_be_bytes())?;
    Ok(key)
}

// So many questions with different keys.
fn questions(alloc: Global, count: u64) -> Result<Vec<Arc<Asked, Global>>, AllocError> {
    let mut items = Vec::new(alloc);
    for number in 0..count {
        let key = key(alloc, number)?;
        let Ok(asked) = Arc::new(alloc, Asked { key }) else {
            return Err(AllocError);
        };
        if items.push(asked).is_err() {
            return Err(AllocError);
        }
    }
    Ok(items)
}

// Opens a board with one question more than are settled, and settles so many: how many answers were deposited.
fn settled<R: Wait>(rt: &R, alloc: Global, opened: u64, settled: u64) -> Result<u64, AllocError> {
    let (board, mut pass) = SharedBoard::<Found>::new(alloc)?;
    board.open(rt, &mut pass, questions(alloc, opened)?)?;
    let counting = Counting {
        left: AtomicU64::new(settled),
        looks: 0,
    };
    let worked = work(rt, alloc, &board, &mut pass, &counting, &OpenGate);
    Ok(worked.deposits)
}

// One worker.
fn by_one<R: Wait>(rt: &R, alloc: Global, board: &SharedBoard<Found>, mut pass: Pass<Found>, counting: &Counting) -> u64
    requires { IsPassOf board.now pass }
{
    work(rt, alloc, board, &mut pass, counting, &OpenGate).deposits
}

// Two workers.
fn by_two<R: Threads + Wait + Sync>(rt: &R, alloc: Global, board: &SharedBoard<Found>, mut one: Pass<Found>, counting: &Counting) -> u64
    requires { IsPassOf board.now one }
{
    let two = board.split(&mut one);
    let (first, second) = thread::join(
        rt,
        move || requires { IsPassOf board.now one } { by_one(rt, alloc, board, one, counting) },
        move || requires { IsPassOf board.now two } { by_one(rt, alloc, board, two, counting) },
    );
    first.wrapping_add(second)
}

// Four workers.
fn by_four<R: Threads + Wait + Sync>(rt: &R, alloc: Global, board: &SharedBoard<Found>, mut one: Pass<Found>, counting: &Counting) -> u64
    requires { IsPassOf board.now one }
{
    let two = board.split(&mut one);
    let (first, second) = thread::join(
        rt,
        move || requires { IsPassOf board.now one } { by_two(rt, alloc, board, one, counting) },
        move || requires { IsPassOf board.now two } { by_two(rt, alloc, board, two, counting) },
    );
    first.wrapping_add(second)
}

// So many workers: one, two, or else four.
fn by<R: Threads + Wait + Sync>(rt: &R, alloc: Global, board: &SharedBoard<Found>, pass: Pass<Found>, counting: &Counting, workers: u64) -> u64
    requires { IsPassOf board.now pass }
{
    match workers {
        1 => by_one(rt, alloc, board, pass, counting),
        2 => by_two(rt, alloc, board, pass, counting),
        _ => by_four(rt, alloc, board, pass, counting),
    }
}

// Sleeps so many seconds, then until every goal has an answer, and closes the board.
fn close_when_done<R: Wait + Clock>(rt: &R, board: &SharedBoard<Found>, mut opener: Pass<Found>, seconds: u64) -> u64
    requires { IsPassOf board.now opener × (number opener ≡ 0) }
{
    let _ = thread::sleep(rt, Duration::from_secs(seconds));
    for _ in rt.forever() {
        let heard = board.changes_heard();
        let looked = board.look(rt, &mut opener);
        if looked.reply.pending == 0 {
            board.close(rt, &mut opener);
            return looked.reply.done;
        }
        board.wait_for_changes(rt, heard);
    }
    unreachable!()
}

// Opens a board, and so many workers settle its goals: how many answers were deposited.
fn shared<R: Threads + Wait + Clock + Sync>(
    rt: &R,
    alloc: Global,
    opened: u64,
    workers: u64,
    looks: u64,
    seconds: u64,
) -> Result<u64, AllocError> {
    let (board, mut opener) = SharedBoard::<Found>::new(alloc)?;
    let board = &board;
    board.open(rt, &mut opener, questions(alloc, opened)?)?;
    let counting = &Counting {
        left: AtomicU64::new(u64::MAX),
        looks,
    };
    let one = board.split(&mut opener);
    let (_done, deposits) = thread::join(
        rt,
        move || requires { IsPassOf board.now opener × (number opener ≡ 0) } { close_when_done(rt, board, opener, seconds) },
        move || requires { IsPassOf board.now one } { by(rt, alloc, board, one, counting, workers) },
    );
    Ok(deposits)
}

// What some 80 microseconds take.
const LOOKS: u64 = 120_000;

fn main(rt: HostRuntime) -> io::Result<()> {
    let alloc = rt.alloc();
    let found = match env::args(&rt)?.skip(1).next() {
        Some(word) => match word.as_str() {
            "open:6553" => settled(&rt, alloc, 6_554, 0),
            "settle:6553" => settled(&rt, alloc, 6_554, 6_553),
            "open:65536" => settled(&rt, alloc, 65_537, 0),
            "settle:65536" => settled(&rt, alloc, 65_537, 65_536),
            "quick:1" => shared(&rt, alloc, 65_536, 1, 0, 0),
            "quick:2" => shared(&rt, alloc, 65_536, 2, 0, 0),
            "quick:4" => shared(&rt, alloc, 65_536, 4, 0, 0),
            "slow:1" => shared(&rt, alloc, 65_536, 1, LOOKS, 0),
            "slow:2" => shared(&rt, alloc, 65_536, 2, LOOKS, 0),
            "slow:4" => shared(&rt, alloc, 65_536, 4, LOOKS, 0),
            "idle" => shared(&rt, alloc, 0, 4, 0, 10),
            _ => settled(&rt, alloc, 1, 0),
        },
        None => settled(&rt, alloc, 1, 0),
    };
    match found {
        Ok(deposits) => println!(rt; "{deposits} deposits"),
        Err(_) => println!(rt; "no memory"),
    }
}
"""

# What the loop of close_when_done keeps.
PROOFS = {
    "Lib.antt": "",
    "close_when_done/Invariants.antt": """use Rattle.std.proofs.Common.{◌≡◌}
use Rattle.turn_lock.specs.Lock.{number}
use Rattle.obligation_board.specs.Passes.{IsPassOf}
use Rattle.boarded.proofs.close_when_done.Given as goal

abbrev pub invariant-loop : goal.invariant-loop
invariant-loop g l = IsPassOf l.board l.opener × (number l.opener ≡ 0)
"""
}


def timed(program, word):
    """Seconds, seconds of a processor, and what the program said."""
    begun = time.monotonic()
    used, _, said = measured.measure(program, word)
    return time.monotonic() - begun, used, said


def by_threads(program):
    """How long 65,536 goals take by 1, 2 and 4 threads, beside what it takes to open them."""
    opening, opened, _ = timed(program, "open:65536")
    print(f"{'search':>8}{'threads':>9}{'seconds':>9}{'turns/s':>10}{'processor s':>13}  outcome")
    for search in ("quick", "slow"):
        for threads in (1, 2, 4):
            whole, used, said = timed(program, f"{search}:{threads}")
            seconds = max(whole - opening, 0.001)
            print(f"{search:>8}{threads:9}{seconds:9.2f}{2 * 65_536 / seconds:10.0f}{used - opened:13.2f}  {said}", flush=True)


def main(words):
    if words[:1] == ["--make"]:
        return measured.workspace(words[1], NAME, STANDS_ON, PROGRAM, PROOFS)
    with tempfile.TemporaryDirectory() as folder:
        if words[:1] == ["--program"]:
            program = os.path.realpath(words[1])
        else:
            program = measured.build(measured.workspace(folder, NAME, STANDS_ON, PROGRAM, PROOFS), "open:6553")
        print(f"{'goals':>8}{'open s':>9}{'settle s':>10}{'MB':>7}  outcome")
        for count in (6_553, 65_536):
            opened, _, _ = measured.measure(program, f"open:{count}")
            settled, memory, said = measured.measure(program, f"settle:{count}")
            print(f"{count:8}{opened:9.2f}{settled - opened:10.2f}{memory:7}  {said}", flush=True)
        by_threads(program)
        seconds, used, _ = timed(program, "idle")
        print(f"four idle workers: {used:.2f} s of a processor in {seconds:.1f} s")


if __name__ == "__main__":
    main(sys.argv[1:])
