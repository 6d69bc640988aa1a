"""Mutants of the Rust beside which the unit is compared: one thing is made wrong at
a time in a copy of the stand-ins or of the driver, which is then compared.

    python3 -m oracle.tests.compare_mutants [COUNT] [SEED] [WORDS]

Every mutant is to be seen as a difference.  With words, only the mutants whose
names have them are tried.  Takes the variables of `oracle/compare`.
"""

import os
import re
import shutil
import subprocess
import sys
from pathlib import Path

ROOT = Path(__file__).resolve().parent.parent.parent
RUST = ROOT / "oracle" / "rust"
WORK = RUST / "target" / "mutants"
NUM, EXACT, IMAGE, PUBLISHED = "num/src/lib.rs", "num/src/exact.rs", "src/image.rs", "src/published.rs"
RECORDS = "src/lib.rs"

# What is wrong, and the file with the text that is replaced by another.
MUTANTS = [
    ("sum: l not tested", EXACT, "in_range(b / g * d)? as i128", "(b / g * d)"),
    ("sum: p not tested", EXACT, "in_range(l / b * a)? as i128", "(l / b * a)"),
    ("sum: q not tested", EXACT, "in_range(l / d * c)? as i128", "(l / d * c)"),
    ("sum: s not tested", EXACT, "in_range(p + q)? as i128", "(p + q)"),
    ("sum: l without the common divisor", EXACT, "b / g * d", "b * d"),
    ("difference: as a sum", EXACT, "self.sum(-(other.numer as i128)", "self.sum((other.numer as i128)"),
    ("range: -2^63 taken", NUM, "(-LIMIT..=LIMIT)", "(-LIMIT - 1..=LIMIT)"),
    ("range: 2^63-1 refused", NUM, "(-LIMIT..=LIMIT)", "(-LIMIT..LIMIT)"),
    ("product: tested before it is reduced", EXACT,
     "Rational64::reduced(self.numer as i128 * other.numer as i128, self.denom as i128 * other.denom as i128)",
     "Some(Rational64::new(self.numer.checked_mul(other.numer)?, self.denom.checked_mul(other.denom)?))"),
    ("quotient: operands exchanged", EXACT,
     "Rational64::reduced(self.numer as i128 * other.denom as i128, self.denom as i128 * other.numer as i128)",
     "Rational64::reduced(self.denom as i128 * other.numer as i128, self.numer as i128 * other.denom as i128)"),
    ("power: 0^0 is 0", NUM, "if exponent == 0 {", "if exponent == 0 && base > 0 {"),
    ("power: sign lost", NUM, "base.numer < 0 && exponent % 2 == 1", "false"),
    ("root: one too small", NUM, "Some(power) if power <= *self", "Some(power) if power < *self"),
    ("fraction part: toward minus infinity", NUM, "self.numer % self.denom", "self.numer.rem_euclid(self.denom)"),
    ("f32: 2^-62 refused", NUM, "-63..=-1 =>", "-61..=-1 =>"),
    ("f32: sign lost", NUM, "if bits >> 31 == 1 { -odd } else { odd }", "odd"),
    ("f32: small ones with the leading bit", NUM, "if field == 0 { fraction }", "if field == 300 { fraction }"),
    ("sine: adding 2 never overflows", NUM,
     "*self = self.checked_add(&other.into()).unwrap_or_else(watch::overflowed)",
     "*self = self.checked_add(&other.into()).unwrap_or(Rational64::new_raw(1, 1))"),
    ("functions of floats: not seen", NUM, "{ UNTESTED_OVERFLOW } else { FLOAT_FUNCTION }", "{ UNTESTED_OVERFLOW } else { 0 }"),
    ("U: its third angle twice", IMAGE, "phi: self.expression(second)?", "phi: self.expression(third)?"),
    ("CX: operands exchanged", IMAGE, "copy: quantum(first), xor: quantum(second)", "copy: quantum(second), xor: quantum(first)"),
    ("call: place of the gate", IMAGE, "name: span(at, name('g', first)), args",
     "name: span(self.image.place(GATES, first), name('g', first)), args"),
    ("call: first parameter for all", IMAGE, "self.image.entry(PARAMETERS, parameter)[0]",
     "self.image.entry(PARAMETERS, second + 0 * parameter)[0]"),
    ("argument: index one too large", IMAGE, "index: index.checked_sub(1)", "index: Some(index).filter(|i| *i > 0)"),
    ("argument: the first place for all", IMAGE, "span(self.image.place(ARGUMENTS, number), Reg", "span(self.image.place(ARGUMENTS, 0), Reg"),
    ("expression: the first place for all", IMAGE, "span(self.image.place(EXPRESSIONS, number), expression)",
     "span(self.image.place(EXPRESSIONS, 0), expression)"),
    ("minus: operands exchanged", IMAGE, "(operands.0, operands.1)", "(operands.1, operands.0)"),
    ("measure: another bit", IMAGE, "self.argument(gate, CLASSICAL, second)", "self.argument(gate, CLASSICAL, second.min(1))"),
    ("conditional: value lost", IMAGE, "val: span(at, second)", "val: span(at, 0)"),
    ("body: last statement lost", IMAGE, "(first..first + length)", "(first..first + length.saturating_sub(1))"),
    ("body: opened though opaque", IMAGE, "0 => None,", "0 if parameters > 0 => None,"),
    ("literal of 2^63 or more: wraps", IMAGE, "first >= 1 << 63 =>", "first >= u64::MAX =>"),
    ("barrier: first argument lost", IMAGE, "regs: (first..first + second)", "regs: (first + 1..first + second)"),
    ("barrier: falling", RECORDS, ".sort_unstable()", ".sort_unstable_by(|a, b| b.cmp(a))"),
    ("trace: gate without the 1", PUBLISHED, "numbers(&caller)[0] + 1", "numbers(&caller)[0]"),
    ("overlap: places exchanged", PUBLISHED, "(12, at(a), at(b))", "(12, at(b), at(a))"),
    ("float without a fraction: NaN as it is", PUBLISHED, "if value.is_nan() { image::NAN } else { bits }", "bits"),
    ("output: a record that fits exactly refused", PUBLISHED, "if record.len() > self.room", "if record.len() >= self.room"),
    ("conditional: namesakes in the head", PUBLISHED, "&qubits[..self.0.qubits as usize]", "&qubits[..]"),
    ("depth: one more", PUBLISHED, "depth as usize)", "(depth as usize).saturating_add(1))"),
]


def copied():
    """Copies the Rust, to make the mutants in."""
    copy = WORK / "copy"
    shutil.rmtree(copy, ignore_errors=True)
    shutil.copytree(RUST, copy, ignore=shutil.ignore_patterns("target"), copy_function=shutil.copy)
    return copy


def tried(copy, what, file, old, new, count, seed):
    """Builds a mutant in the copy and compares; the number of differences."""
    text = (RUST / file).read_text()
    if text.count(old) != 1:
        raise SystemExit(f"{what}: {text.count(old)} places in {file}")
    (copy / file).write_text(text.replace(old, new))
    try:
        return compared(copy, what, count, seed)
    finally:
        (copy / file).write_text(text)


def compared(copy, what, count, seed):
    options = ["--offline", "--quiet", "--release", "--jobs", "1", "--features", "unit", "--bin", "compare"]
    command = ["cargo", "run", *options, "--", seed, count]
    environment = dict(os.environ, CARGO_TARGET_DIR=str(WORK / "build"))
    environment.setdefault("COWHIRAME_LIB", str(ROOT / "target" / "staticlib"))
    done = subprocess.run(command, cwd=copy, env=environment, capture_output=True, text=True)
    found = re.search(r"^(\d+) differences", done.stdout, re.MULTILINE)
    if not found:
        raise SystemExit(f"{what}: {done.stderr}")
    return int(found[1])


def main(count="5000", seed="1", words=""):
    missed, copy = 0, copied()
    mutants = [mutant for mutant in MUTANTS if words in mutant[0]]
    if compared(copy, "no mutant", count, seed):
        raise SystemExit("differences without a mutant")
    for mutant in mutants:
        differences = tried(copy, *mutant, count, seed)
        missed += differences == 0
        print(f"{mutant[0]}: {f'{differences} differences' if differences else 'NOT SEEN'}", flush=True)
    print(f"{len(mutants)} mutants, {missed} not seen")
    sys.exit(missed > 0)


if __name__ == "__main__":
    main(*sys.argv[1:])
