#!/usr/bin/env bash
# A signal that was sent is no longer the sender's: shows that a crate which reads one after
# `Endpoint::send` isn't compiled, and that it is without that line. Works on a copy of what is
# committed, without proofs, for a minute or two.
#   bench/try misuse
set -euo pipefail
top="$(cd "$(dirname "$0")/.." && pwd)"
work="$(mktemp -d)"
trap 'rm -rf "$work"' EXIT
git -C "$top" archive HEAD crates.txt HANDLES crates | tar -x -C "$work"
git init -q "$work"
sed -n 's/^linx_api \(.*\)$/misuse \1 linx_api/p' "$top/crates.txt" >> "$work/crates.txt"
mkdir -p "$work/crates/misuse/src"
cd "$work/crates/misuse"

cat > src/tests.rt <<'TESTS'
//! A test, so that the crate is compiled.
use std::test::Fail;

#[test]
fn it_is_compiled(rt: HostRuntime) -> Result<(), Fail> {
    assert!(rt; true);
    Ok(())
}
TESTS

# compiled ANSWER: what comes of a crate that sends a signal and then answers so.
compiled() {
    cat > src/lib.rt <<CRATE
//! Sends a signal.
#![tactic(auto)]

use linx_api::Endpoint;
use linx_base::{Peer, Signal};
use std::sync::Wait;

#[cfg(test)]
mod tests;

/// Sends a signal, and tells a number.
pub fn send_and_tell<R: Wait>(rt: &R, endpoint: Endpoint, to: Peer, signal: Signal) -> u32 {
    let _told = endpoint.send(rt, signal, to);
    $1
}
CRATE
    rt try --test 2>&1 || true
}

compiled 'signal.number()' > used
compiled '0' > unused
if grep -q 'moved value: `signal`' used && grep -q '1 passed' unused; then
    echo "a signal that was sent can't be used"
else
    cat used unused
    exit 1
fi
