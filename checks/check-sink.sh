#!/bin/sh
# Checks that code of a user cannot reach the buffer that a serializer borrows. Compiles three crates over a copy of the
# library, each of which tries, and expects the compiler to reject each for this reason. The copy has what `rt check`
# kept here (`out/`), so a run takes a minute; without it, it takes as long as all proofs of the library.
cd "$(dirname "$0")/.." || exit 2
room=$(mktemp -d) || exit 2
trap 'rm -rf "$room"' EXIT

for crate in sfv_spec sfv_model sfv_base sfv_values sfv_tree sfv_writer sfv_serializer sfv; do
    mkdir -p "$room/crates/$crate" || exit 2
    for part in src specs proofs out; do
        [ ! -d "crates/$crate/$part" ] || cp -a "crates/$crate/$part" "$room/crates/$crate/" || exit 2
    done
    grep "^$crate:" crates.txt >>"$room/crates.txt" || exit 2
done
echo 'reaching: sfv sfv_serializer' >>"$room/crates.txt"
cp HANDLES "$room/" && mkdir -p "$room/crates/reaching/src" && (cd "$room" && git init -q .) || exit 2

# Expects that the crate with this code, on standard input, is rejected with these words.
is_rejected() {
    cat >"$room/crates/reaching/src/lib.rt"
    (cd "$room/crates/reaching" && rt check) >"$room/log" 2>&1 && { echo "$1: not rejected"; failed=1; return; }
    grep -q -- "$2" "$room/log" || { echo "$1: rejected for another reason"; tail -n 5 "$room/log"; failed=1; return; }
    echo "$1: rejected"
}

failed=0
is_rejected "a call without a token" 'opener\|argument' <<'CODE'
//! Clears the buffer of a list between two members.
#![tactic(auto)]

use sfv::{ListSerializer, Sink};

pub fn cleared<W: Sink>(list: &mut ListSerializer<W>) -> usize {
    let text: &mut String = list.text_mut();
    let length = text.len();
    text.clear();
    length
}
CODE
is_rejected "a call with a token" 'private\|Opener' <<'CODE'
//! Clears the buffer of a list between two members.
#![tactic(auto)]

use sfv::{ListSerializer, Sink};
use sfv_serializer::sink::OPENER;

pub fn cleared<W: Sink>(mut list: &mut ListSerializer<W>) -> usize {
    let text: &mut String = list.text_mut(OPENER);
    let length = text.len();
    text.clear();
    length
}
CODE
is_rejected "another sink" 'private\|Opener' <<'CODE'
//! A sink that keeps the token that it receives.
#![tactic(auto)]

use sfv::Sink;
use sfv_serializer::sink::Opener;

#[derive(Drop)]
pub struct Kept {
    text: String,
}

impl Sink for Kept {
    fn text_mut(&mut self, _opener: Opener) -> &mut String {
        &mut self.text
    }
}
CODE
exit "$failed"
