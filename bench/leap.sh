#!/bin/bash
# How long one generation of a word takes, cell by cell and by adders, and the leap of a square of side 16.
#
#   bench/leap.sh
#
# A program that times them is proved, built and run over a copy of the crates. Times are nanoseconds of elapsed time for
# one call, under b3s23, which has a way of its own through words, and b36s23; the compiler knows neither.
# Exit status: 0 if a leap by four generations takes less than a microsecond, 1 if not, 2 if something is missing.
set -u
cd "$(dirname "$0")/.." || exit 2
work=$(mktemp -d) || exit 2
trap 'rm -rf "$work"' EXIT
mkdir -p "$work/crates/speed/src" || exit 2
git archive HEAD crates/model crates/rules crates/leaf | tar -x -C "$work" || exit 2
printf '%s\n' 'model:' 'rules: model' 'leaf: model rules' 'speed: model leaf rules' >"$work/crates.txt"
cat >"$work/crates/speed/src/main.rt" <<'PROGRAM'
#![tactic(auto)]

ghost use Rattle.std.specs.Prelude.{◌≤◌};

use leaf::{generation, generation_plain, leap16};
use model::Quarters;
use rules::Rule;
use std::io;
use std::time::Instant;

const CALLS: u64 = 1_000_000;

fn mixed(n: u64) -> u64 {
    (n ^ (n >> 29)).wrapping_mul(0x9e37_79b9_7f4a_7c15)
}

fn rule_of(born: u16, stays: u16) -> Rule
{
    match Rule::new(born, stays) {
        Ok(rule) => rule,
        Err(_) => Rule::life(),
    }
}

fn plain(rt: &HostRuntime, rule: Rule, sum: &mut u64) -> io::Result<u128>
{
    let start = Instant::now(rt)?;
    for i in 0..CALLS {
        *sum ^= generation_plain(rule, mixed(i));
    }
    Ok(start.elapsed(rt)?.as_nanos() / 1_000_000)
}

fn adders(rt: &HostRuntime, rule: Rule, sum: &mut u64) -> io::Result<u128>
{
    let start = Instant::now(rt)?;
    for i in 0..CALLS {
        *sum ^= generation(rule, mixed(i));
    }
    Ok(start.elapsed(rt)?.as_nanos() / 1_000_000)
}

fn leaps(rt: &HostRuntime, rule: Rule, n: u32, sum: &mut u64) -> io::Result<u128>
    requires { n ≤ 4 }
{
    let start = Instant::now(rt)?;
    for i in 0..CALLS {
        let four = Quarters {
            nw: mixed(i),
            ne: mixed(i + 1),
            sw: mixed(i + 2),
            se: mixed(i + 3),
        };
        *sum ^= leap16(rule, four, n);
    }
    Ok(start.elapsed(rt)?.as_nanos() / 1_000_000)
}

// Times one rule, given by the number of its births.
fn time(rt: &HostRuntime, name: &str, born: u16) -> io::Result<()> {
    let rule = rule_of(born, 12);
    let mut sum = 0;
    let plain = plain(rt, rule, &mut sum)?;
    let adders = adders(rt, rule, &mut sum)?;
    let one = leaps(rt, rule, 1, &mut sum)?;
    let two = leaps(rt, rule, 2, &mut sum)?;
    let four = leaps(rt, rule, 4, &mut sum)?;
    println!(rt; "{name}: plain {plain} adders {adders} leap by 1 {one} leap by 2 {two} leap by 4 {four} ns ({sum})")
}

fn main(rt: HostRuntime) -> io::Result<()> {
    let start = Instant::now(&rt)?;
    let still = start.elapsed(&rt)?.as_nanos() == 0;
    time(&rt, "b3s23", if still { 72 } else { 8 })?;
    time(&rt, "b36s23", if still { 8 } else { 72 })
}
PROGRAM
said=$(cd "$work/crates/speed" && rt run 2>"$work/errors" | grep -o '^b[^(]* ns')
[[ -n $said ]] || { cat "$work/errors" >&2; echo "bench: the program did not run" >&2; exit 2; }
echo "$said"
[[ $said =~ 'leap by 4 '([0-9]+) ]] && ((BASH_REMATCH[1] < 1000))
