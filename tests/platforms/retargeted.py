"""Which modules are compiled for another system, by small ones: one that asks for what only Linux on x86-64 has is refused. The last line
is 'N passed, M failed'."""
import os
import sys

sys.dont_write_bytecode = True
sys.path.insert(1, os.path.join(os.path.dirname(os.path.dirname(os.path.dirname(os.path.realpath(__file__)))), "tools/lib"))
import targets  # noqa: E402

HEAD = 'target datalayout = ""\ntarget triple = ""\n'
PAIR = "declare { i64, i64 } @f(i64 noundef) #0"
# Each with its name, the module, and what its text then has; nothing where it is refused.
TRIED = [
    ("a call of the host by another name",
        "declare i64 @read(i32, ptr, i64)\ndefine i64 @main() {\n  %r = call i64 @read(i32 0, ptr null, i64 0)",
     "call i64 @host_read("),
    ("its place as well", "declare i64 @read(i32, ptr, i64)\ndefine ptr @main() {\n  ret ptr @read", "ret ptr @host_read"),
    ("a name that only begins so stays", "declare i64 @read_all(i32)", "@read_all("),
    ("two words that come back", f"{PAIR}\ndefine i64 @g() {{\n  %r = call {{ i64, i64 }} @f(i64 1)",
        '%r = call { i64, i64 } @"f by pointer"(i64 1)'),
    ("two words that come back otherwise", f"{PAIR}\ndefine i64 @g() {{\n  %r = call fastcc {{ i64, i64 }} @f(i64 1)", ""),
    ("the place of what gives two words back", f"{PAIR}\n@place = global ptr @f", ""),
    ("two other values that come back", "declare { ptr, i64 } @f(i64)", ""),
    ("two words that C is given back", "define { i64, i64 } @g(i64 %a) {", ""),
    ("a small value whose upper bits are filled", "define i8 @g(i8 zeroext %a) {", ""),
    ("one that comes back so", "declare zeroext i8 @f(i64)", ""),
    ("a struct by value", "declare void @f(ptr byval({ i64, i64, i64 }))", ""),
    ("another way to call", "define x86_64_sysvcc i64 @g(i64 %a) {", ""),
    ("assembly", 'define void @g() {\n  call void asm sideeffect "nop", ""()', ""),
    ("assembly with a value", 'define void @g() {\n  %r = tail call i32 asm "nop", "=r"()', ""),
    ("assembly beside the functions", 'module asm "nop"', ""),
    ("an instruction of x86-64", "declare i64 @llvm.x86.rdtsc()", ""),
]


def complaint(module, wanted):
    try:
        text = targets.retargeted(HEAD + module, targets.TARGETS["windows"])
    except SystemExit:
        return wanted and "it is refused"
    return "" if wanted and wanted in text else f"it became {text!r}"


def main():
    failed = 0
    for name, module, wanted in TRIED:
        why = complaint(module, wanted)
        failed += bool(why)
        print(f"FAILED  {name}\n    {why}" if why else f"ok      {name}")
    print(f"{len(TRIED) - failed} passed, {failed} failed")
    return 1 if failed else 0


if __name__ == "__main__":
    sys.exit(main())
