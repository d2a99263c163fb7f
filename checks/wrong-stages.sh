#!/bin/sh
# A gap is paid only from an ended sheet, and entered only into one that is not: a program in another order is no program.
# Each case is a tiny crate over settlement in a copy of it. The check has to refuse it in the words given, and to accept the right order.
set -eu
root=$(cd "$(dirname "$0")/.." && pwd)
work=$(mktemp -d)
trap 'rm -rf "$work"' EXIT
mkdir -p "$work/crates/settlement" "$work/crates/refusals"
for part in src specs proofs; do
    cp -R "$root/crates/settlement/$part" "$work/crates/settlement/$part"
done
cp -R "$root/crates/refusals/src" "$work/crates/refusals/src"
failed=0

# Checks a crate NAME whose code stands on standard input.
checked() {
    mkdir -p "$work/crates/$1/src"
    { printf 'use settlement::fault::SheetFault;\nuse settlement::sheet::Sheet;\n\n'; cat; } >"$work/crates/$1/src/lib.rt"
    printf 'refusals:\nsettlement: refusals\n%s: settlement\n' "$1" >"$work/crates.txt"
    (cd "$work/crates/$1" && rt check) >"$work/out" 2>&1
}

wrong() {
    echo "wrong-stages: $1"
    tail -n 5 "$work/out"
    failed=1
}

accepted() { # NAME
    if checked "$1"; then
        echo "wrong-stages: $1: accepted, as it must be"
    else
        wrong "$1: REFUSED, but had to be accepted"
    fi
}

refused() { # NAME WORDS
    if checked "$1"; then
        wrong "$1: ACCEPTED, but had to be refused"
    elif grep -q -F "$2" "$work/out"; then
        echo "wrong-stages: $1: refused, as it must be: $2"
    else
        wrong "$1: refused for another reason"
    fi
}

accepted enter_end_pay <<'R'
pub fn in_order(gap: i64) -> Result<i64, SheetFault> {
    let mut sheet = Sheet::start(1, 1)?;
    sheet.enter(gap)?;
    let (mut paying, _) = sheet.end();
    paying.pay(gap)
}
R

refused pay_while_entering 'error[unknown-method]: no method named `pay` found for type `Sheet`' <<'R'
pub fn early(gap: i64) -> Result<i64, SheetFault> {
    let mut sheet = Sheet::start(1, 1)?;
    sheet.enter(gap)?;
    sheet.pay(gap)
}
R

refused enter_while_paying 'error[unknown-method]: no method named `enter` found for type `PayingSheet`' <<'R'
pub fn late(gap: i64) -> Result<u8, SheetFault> {
    let sheet = Sheet::start(1, 1)?;
    let (mut paying, _) = sheet.end();
    paying.enter(gap)
}
R

refused enter_after_the_end 'error[borrow-e0382]: borrow of moved value: `sheet`' <<'R'
pub fn again(gap: i64) -> Result<u8, SheetFault> {
    let mut sheet = Sheet::start(1, 1)?;
    let (_paying, _) = sheet.end();
    sheet.enter(gap)
}
R

refused end_twice 'error[borrow-e0382]: use of moved value: `sheet`' <<'R'
pub fn twice() -> Result<u32, SheetFault> {
    let sheet = Sheet::start(1, 1)?;
    let (_first, _) = sheet.end();
    let (_second, price) = sheet.end();
    Ok(price)
}
R

refused copy_a_sheet 'error[unknown-method]: the method `clone` exists for `Sheet`, but its bounds are not met' <<'R'
pub fn doubled() -> Result<u32, SheetFault> {
    let sheet = Sheet::start(1, 1)?;
    let (_paying, price) = sheet.clone().end();
    Ok(price)
}
R

refused copy_a_paying_sheet 'error[unknown-method]: the method `clone` exists for `PayingSheet`, but its bounds are not met' <<'R'
pub fn doubled(gap: i64) -> Result<i64, SheetFault> {
    let sheet = Sheet::start(1, 1)?;
    let (paying, _) = sheet.end();
    paying.clone().pay(gap)
}
R

exit $failed
