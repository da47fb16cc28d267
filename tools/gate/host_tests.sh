#!/usr/bin/env bash
# Tests both libraries from C and Rust: header, record layout, what the archives
# hold, examples, a comparison with a plain engine, assembler and glass, and the
# instructions of a step, where valgrind is installed. Needs
# libht1130.a and libht1130_tools.a, in target/staticlib or in HT1130_LIB_DIR
# (from the top of the repository, or absolute). With --all every pair of a small
# mask is asked for its bound, and not a sample of those that it does not reach.
set -euo pipefail
case "$*" in '') whole='' ;; --all) whole=--whole ;; *) echo "usage: tools/gate/host_tests.sh [--all]" >&2 && exit 2 ;; esac
cd "$(dirname "$0")/../.."

lib=${HT1130_LIB_DIR:-target/staticlib}
for name in ht1130 ht1130_tools; do
    if [ ! -f "$lib/lib$name.a" ]; then
        echo "no lib$name.a in $lib: tools/staticlibs" >&2
        exit 1
    fi
done
HT1130_LIB_DIR=$(realpath "$lib")
CARGO_TARGET_DIR=$PWD/target/cargo
export HT1130_LIB_DIR CARGO_TARGET_DIR
work=target/host_tests
mkdir -p "$work"

say() { printf '== %s\n' "$*"; }
cargo_in() { (cd "$1" && shift && cargo "$@"); }

say "headers: C99, C11 and C++"
for header in include/ht1130.h include/ht1130_tools.h; do
    for standard in c99 c11; do
        gcc -std=$standard -pedantic -Wall -Wextra -Werror -fsyntax-only -x c "$header"
    done
    g++ -std=c++11 -pedantic -Wall -Wextra -Werror -fsyntax-only -x c++ "$header"
done

say "archives: each exports its own functions and no others"
exports() { nm -g --defined-only "$HT1130_LIB_DIR/lib$1.a" | awk '$2 == "T" || $2 == "W" { print $3 }' | sort; }
diff <(printf 'ht1130_%s\n' apply gap_count power_on report) <(exports ht1130)
diff <(printf 'ht1130_%s\n' assemble bound check check_script glass_draw glass_read read reading run_script way write) <(exports ht1130_tools)
for name in ht1130 ht1130_tools; do
    # of the C library only these two
    nm -u "$HT1130_LIB_DIR/lib$name.a" | awk '$1 == "U" && $2 != "memcpy" && $2 != "memset" { print; bad = 1 } END { exit bad }'
done

say "archives: no list of lengths and cycles, in a section or on the stack of a call"
python3 tools/gate/find_list.py --forms
for name in ht1130 ht1130_tools; do
    python3 tools/gate/find_list.py "$HT1130_LIB_DIR/lib$name.a"
    # nor a place to fill one in: nothing that can be written
    readelf -SW "$HT1130_LIB_DIR/lib$name.a" | awk '/ +WA/ { print; bad = 1 } END { exit bad }'
done
gcc -std=c11 -O2 -Wall -Wextra -Werror -I include -o "$work/call_stacks" tools/gate/call_stacks.c \
    "$HT1130_LIB_DIR/libht1130.a" "$HT1130_LIB_DIR/libht1130_tools.a"
rm -rf "$work/stacks"
mkdir "$work/stacks"
"$work/call_stacks" "$work/stacks"
# the control has one, and it must be found
python3 tools/gate/find_list.py --memory "$work/stacks/control.stack" > "$work/control.out" || true
grep -q ': lengths, entries of width 1$' "$work/control.out"
rm "$work/stacks/control.stack"
python3 tools/gate/find_list.py --memory "$work"/stacks/*.stack

say "examples/segments.c"
gcc -std=c11 -O2 -Wall -Wextra -Werror -I include -o "$work/segments" examples/segments.c "$HT1130_LIB_DIR/libht1130.a" "$HT1130_LIB_DIR/libht1130_tools.a"
"$work/segments" > "$work/segments.out"
diff examples/segments.out "$work/segments.out"
"$work/segments" demo/forbidden.bin > "$work/segments_forbidden.out"    # a mask that fails: the way
diff examples/segments_forbidden.out "$work/segments_forbidden.out"
# MOV R1R0,80H; MOV A,[R1R0]; INC [R1R0]; then JMP 004H for ever: one access and two
{ printf '\x50\x08\x04\x0c\xe0\x04' && head -c 4090 /dev/zero; } > "$work/strays.bin"
diff <(echo '3 reads and writes at 80h-DFh') <("$work/segments" "$work/strays.bin" | grep ' reads and writes ')

say "examples/assemble.c"
gcc -std=c11 -O2 -Wall -Wextra -Werror -I include -o "$work/assemble" examples/assemble.c "$HT1130_LIB_DIR/libht1130_tools.a"
"$work/assemble" > "$work/assemble.out"
diff examples/assemble.out "$work/assemble.out"
printf 'IDLE: JMP IDLE\n JMP THERE\n' > "$work/refused.asm"             # a label that is missing
diff <(echo 'refused 14 at line 2') <("$work/assemble" "$work/refused.asm")
printf 'JMP IDLE\n ORG 800H\nIDLE: RET' > "$work/forbidden.asm"         # a mask that fails
"$work/assemble" "$work/forbidden.asm" > "$work/assemble_forbidden.out"
diff examples/assemble_forbidden.out "$work/assemble_forbidden.out"
waits() { printf '%b' "$1" > "$work/waits.asm" && "$work/assemble" "$work/waits.asm" | sed -n 's/^bound at //p'; }
diff <(printf '%s level 2: not reached\n' 004 008) <(waits 'IDLE: JMP IDLE\n')
diff <(printf '%s level 2: no bound\n' 004 008) <(waits 'EI\nIDLE: JMP IDLE\n ORG 4\n HALT\n ORG 8\nHERE: JMP HERE\n')

say "examples/readings.c"
gcc -std=c11 -O2 -Wall -Wextra -Werror -I include -o "$work/readings" examples/readings.c "$HT1130_LIB_DIR/libht1130.a" "$HT1130_LIB_DIR/libht1130_tools.a"
"$work/readings" > "$work/readings.out"
diff examples/readings.out "$work/readings.out"
# a digit at the left with blanks after it
diff <(echo 'run       unreadable at digit 1') <("$work/readings" demo/forbidden.bin | grep '^run ')

say "rust/ht1130"
cargo_in rust/ht1130 test --offline --release --quiet

say "examples/check_and_run"
cargo_in examples/check_and_run build --offline --release --quiet
target/cargo/release/check_and_run demo/mask.bin demo/script.bin > "$work/check_and_run.out"
diff examples/check_and_run.out "$work/check_and_run.out"
target/cargo/release/check_and_run demo/forbidden.bin demo/script.bin > "$work/check_and_run_forbidden.out"
diff examples/check_and_run_forbidden.out "$work/check_and_run_forbidden.out"

say "bench: the plain engine's, assembler's and glass's own tests, then the libraries against them"
cargo_in bench test --offline --release --quiet
cargo_in bench build --offline --release --quiet
target/cargo/release/bench diff --seed 1130 $whole

say "the instructions of a step, held to what docs/PERFORMANCE.md says"
python3 tools/gate/step_instructions.py target/cargo/release/bench

say "host tests passed"
