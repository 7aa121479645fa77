#!/usr/bin/env python3
"""Measures how long programs are parsed and resolved, in seconds of a processor.

    times.py [--program FILE] [FORM:BYTES ..]

Each FORM is one of texts.py. The measuring program is proved and built by the Rattle kit's command `rt` over
the crates of this repository, whose proofs it takes from their out/ folders where they were checked before;
with --program a file that was built before is run. --make FOLDER only writes its workspace, for a build by
hand.
"""
import os
import resource
import sys
import tempfile

import measured
import texts

NAME = "measured"
USUAL = [f"{form}:{size}" for form in ("declarations", "procedure", "functions", "constants", "calls", "variables")
         for size in (1_000_000, 2_000_000, 4_000_000)] + ["declarations:10000000", "procedure:16000000"]

PROGRAM = """//! Reads standard input to its end; then parses it where the word says so; then resolves it where it says that.
#![tactic(auto)]

ghost use Rattle.std.specs.Prelude.{◌<◌, ◌-◌, ◌^◌, length};

use bpl_parse::parse;
use bpl_resolve::resolve;
use bv_base::{StdSource, read_all};
use std::alloc::Global;
use std::env;
use std::io;

/// What became of the text.
fn outcome(alloc: Global, word: &str, text: &[u8]) -> &'static str
    requires { length text.now < 2 ^ 32 - 1 }
{
    if word == "read" {
        return "read";
    }
    match parse(alloc, text) {
        Ok(program) if word == "resolve" => match resolve(alloc, &program) {
            Ok(_) => "resolved",
            Err(_) => "faulty",
        },
        Ok(_) => "parsed",
        Err(_) => "refused",
    }
}

fn main(rt: HostRuntime) -> io::Result<()> {
    let mut source = StdSource::new(rt.reader());
    let said = match read_all(rt.alloc(), &mut source, 268_435_456) {
        Ok(text) => match env::args(&rt)?.skip(1).next() {
            Some(word) => outcome(rt.alloc(), &word, &text),
            None => "no word",
        },
        Err(_) => "unread",
    };
    println!(rt; "{said}")
}
"""


def workspace(folder):
    """A copy of the crates, with the measuring program."""
    return measured.workspace(folder, NAME, "bv_base bpl_ast bpl_parse bpl_resolve", PROGRAM)


def main(words):
    program, wanted = None, []
    while words:
        word = words.pop(0)
        if word == "--program":
            program = os.path.realpath(words.pop(0))
        elif word == "--make":
            return workspace(words.pop(0))
        else:
            wanted.append(word)
    # deep trees are dropped by recursion
    resource.setrlimit(resource.RLIMIT_STACK, (resource.RLIM_INFINITY, resource.getrlimit(resource.RLIMIT_STACK)[1]))
    with tempfile.TemporaryDirectory() as folder:
        program = program or measured.build(workspace(os.path.join(folder, "workspace")), "read")
        path = os.path.join(folder, "text")
        print(f"{'text':26}{'parse s':>9}{'resolve s':>11}{'MB':>7}  outcome")
        for form_size in wanted or USUAL:
            form, size = form_size.split(":")
            with open(path, "w") as given:
                given.write(texts.text(form, int(size)))
            read, _, _ = measured.measure(program, "read", path)
            parsed, _, _ = measured.measure(program, "parse", path)
            resolved, memory, said = measured.measure(program, "resolve", path)
            print(f"{form_size:26}{parsed - read:9.2f}{resolved - parsed:11.2f}{memory:7}  {said}", flush=True)


if __name__ == "__main__":
    main(sys.argv[1:])
