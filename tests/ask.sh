#!/usr/bin/env bash
# Tries ./ask as a user meets it: a line for each case, and status 1 where one differs from what is expected.
set -u
here=$(cd "$(dirname "${BASH_SOURCE[0]}")/.." && pwd)
ask=$here/ask
example=$here/examples/sluices.bin
work=$(mktemp -d)
trap 'rm -rf "$work"' EXIT
failed=0

# Runs ./ask on standard input with the arguments given: leaves its status in $status, what it wrote in $work.
run() {
    "$ask" "$@" >"$work/out" 2>"$work/err"
    status=$?
}

# Says whether a case came out as expected, and what differed.
verdict() {
    local name=$1 difference=$2
    if [ -z "$difference" ]; then
        echo "ok: $name"
    else
        failed=1
        echo "FAILED: $name: $difference"
        echo "  status: $status"
        sed 's/^/  stdout: /' "$work/out" | cat -v
        sed 's/^/  stderr: /' "$work/err"
    fi
}

# The run wrote exactly this text and ended with status 0.
expect_answer() {
    local name=$1 text=$2 difference=
    [ "$status" -eq 0 ] || difference="status 0 was expected"
    printf '%s\n' "$text" | cmp -s - "$work/out" || difference="'$text' was expected"
    [ ! -s "$work/err" ] || difference="nothing on standard error was expected"
    verdict "$name" "$difference"
}

# The run wrote nothing, gave a message that holds each of these texts, and ended with status 1.
expect_failure() {
    local name=$1 text difference=
    shift
    [ "$status" -eq 1 ] || difference="status 1 was expected"
    [ ! -s "$work/out" ] || difference="nothing on standard output was expected"
    for text in "$@"; do
        grep -qF -- "$text" "$work/err" || difference="'$text' was expected on standard error"
    done
    verdict "$name" "$difference"
}

# The run told a refusal in one line, or a line for each register, and nothing else, and ended with status 0.
expect_lines() {
    local name=$1 line='register [0-7]: [0-9]+ keys?, [1-8] columns?, [0-9]+ rows?; [0-9]+ keys? ha(s|ve) more than one row' difference=
    [ "$status" -eq 0 ] || difference="status 0 was expected"
    [ ! -s "$work/err" ] || difference="nothing on standard error was expected"
    [ -s "$work/out" ] || difference="some line was expected"
    if [ "$(wc -l <"$work/out")" -eq 1 ]; then
        grep -qxE "refused [12] [0-8]|$line" "$work/out" || difference="a refusal or a register was expected"
    else
        ! grep -qvxE "$line" "$work/out" || difference="lines of registers were expected"
    fi
    verdict "$name" "$difference"
}

# So many bytes from a fixed seed.
random_bytes() {
    python3 -c 'import random, sys; sys.stdout.buffer.write(random.Random(1).randbytes(int(sys.argv[1])))' "$1"
}

answer=$(cat "$here/crates/ask/stdout")

# The first call may build the program, and says so on standard error; the others must not.
"$ask" "$example" >/dev/null || failed=1

status=0
python3 -B -c 'import sys; sys.path.insert(0, sys.argv[1]); import make; sys.stdout.buffer.write(make.packed(make.SLUICES))' \
    "$here/examples" >"$work/out" 2>"$work/err"
difference=
cmp -s "$work/out" "$example" || difference="examples/sluices.bin is not what make.py writes"
cmp -s "$example" "$here/crates/ask/stdin" || difference="crates/ask/stdin is not the example"
verdict "the example is what its table says" "$difference"

run "$example" </dev/null
expect_answer "the example as a file" "$answer"
run <"$example"
expect_answer "the example on standard input" "$answer"
cat "$example" | (run; exit "$status")
status=$?
expect_answer "the example through a pipe" "$answer"
(head -c 6 "$example"; sleep 0.2; tail -c +7 "$example") | (run; exit "$status")
status=$?
expect_answer "the example in two parts that split a number" "$answer"
cd "$work" && cp "$example" relative.bin
run relative.bin </dev/null
expect_answer "a file named from another folder" "$answer"
ln -s "$ask" "$work/linked"
"$work/linked" relative.bin >"$work/out" 2>"$work/err" </dev/null
status=$?
expect_answer "the script through a link" "$answer"

run "$work/missing.bin" </dev/null
expect_failure "a missing file" "$work/missing.bin" "No such file or directory"
run "$work" </dev/null
expect_failure "a folder in place of a file" "$work" "Is a directory"
run "$example" "$example" </dev/null
expect_failure "two arguments" "usage: ask [FILE]"
run $'\xff' </dev/null
expect_failure "an argument that is no text" "arguments"
run <&-
expect_failure "no standard input" "standard input"

: >"$work/empty"
run "$work/empty" </dev/null
expect_answer "an empty file" "refused 1 8"
size=$(wc -c <"$example")
for cut in 1 2 3 4; do
    head -c $((size - cut)) "$example" >"$work/cut"
    run "$work/cut" </dev/null
    expect_answer "the example without its last $cut bytes" "refused 1 2"
done
(cat "$example"; printf '\7\7\7') >"$work/longer"
run "$work/longer" </dev/null
expect_answer "three bytes behind the example" "$answer"
(cat "$example"; printf '\377\377\377\377') >"$work/longer"
run "$work/longer" </dev/null
expect_answer "a number behind the example" "$answer"

for length in 1 3 4 5 64 1000 65535 65537 300001; do
    random_bytes "$length" >"$work/random"
    run "$work/random" </dev/null
    expect_lines "$length random bytes"
done
for seed in 1 2 3 4 5 6 7 8; do
    python3 "$here/tests/random_registers.py" "$seed" "$work/random" "$work/answer"
    run "$work/random" </dev/null
    expect_answer "random registers of seed $seed" "$(cat "$work/answer")"
done
python3 "$here/tests/damaged_registers.py" "$ask" >"$work/out" 2>"$work/err"
status=$?
difference=
[ "$status" -eq 0 ] || difference="the plain reading says otherwise"
verdict "damaged registers as a plain reading tells them" "$difference"
exit "$failed"
