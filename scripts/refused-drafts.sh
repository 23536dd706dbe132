#!/usr/bin/env bash
# Two misuses of a draft's token are refused by the compiler, before a proof is looked at: a token that is neither promoted nor
# given up, and an append to a promoted draft. This edits a copy of a small crate outside the repository, and expects exactly
# these errors. It fails where a misuse compiles or is refused for another reason, or where the unedited copy does not check.
set -euo pipefail
cd "$(dirname "$0")/.."

copy=$(mktemp -d)
trap 'rm -rf "$copy"' EXIT
mkdir -p "$copy/crates/draftuse/src"
cp -r crates/terms crates/medium "$copy/crates"
printf 'terms:\nmedium: terms\ndraftuse: terms medium\n' >"$copy/crates.txt"
cat >"$copy/right.rt" <<'RATTLE'
// Writes new live bytes in the place of the old ones.
#![tactic(auto)]

use medium::{Fault, Medium};

pub fn replace<M: Medium>(m: &mut M, bytes: &[u8]) -> Result<(), Fault> {
    let draft = m.begin()?;
    if let Err(e) = m.draft_append(&draft, bytes) {
        m.give_up(draft);
        return Err(e);
    }
    m.promote(draft)
}
RATTLE

# Checks the copy with the line `m.promote(draft)` put as $1; what the check printed is then in $copy/out.
checks() {
    local right
    right=$(<"$copy/right.rt")
    printf '%s\n' "${right/"m.promote(draft)"/"$1"}" >"$copy/crates/draftuse/src/lib.rt"
    (cd "$copy/crates/draftuse" && rt check) >"$copy/out" 2>&1
}

# Expects that the copy with $2 is refused with the compiler's error $1, and with no other.
refused() {
    if checks "$2"; then
        echo "refused-drafts: compiles, and must not: $2" >&2
        exit 1
    fi
    local found
    found=$({ grep -o 'error\[[a-z0-9-]*\]' "$copy/out" || true; } | sort -u | tr '\n' ' ')
    if [ "$found" != "error[$1] " ]; then
        echo "refused-drafts: expected error[$1], and found: $found" >&2
        tail -n 20 "$copy/out" >&2
        exit 1
    fi
    echo "refused-drafts: error[$1], as it must be: $2"
}

if ! checks 'm.promote(draft)'; then
    echo "refused-drafts: the unedited copy does not check" >&2
    tail -n 20 "$copy/out" >&2
    exit 1
fi
refused linear-value-let-go 'Ok(())'
refused borrow-e0382 'm.promote(draft)?; m.draft_append(&draft, bytes)'
