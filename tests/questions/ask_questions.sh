#!/usr/bin/env bash
# Tries ./ask_questions as a user meets it: a line for each case, and status 1 where one differs from what is expected.
set -u
# The last command of a pipe runs in this shell, so that its status is known behind it.
shopt -s lastpipe
here=$(cd "$(dirname "${BASH_SOURCE[0]}")/../.." && pwd)
ask=$here/ask_questions
example=$here/examples/questions.bin
work=$(mktemp -d)
trap 'rm -rf "$work"' EXIT
failed=0

# Runs ./ask_questions on standard input with the arguments given: leaves its status in $status, what it wrote in $work.
run() {
    "$ask" "$@" >"$work/out" 2>"$work/err"
    status=$?
}

# Says whether a case came out as expected, and what differed.
verdict() {
    local name=$1 difference=$2
    if [ -z "$difference" ]; then
        echo "ok: $name"
    else
        failed=1
        echo "FAILED: $name: $difference"
        echo "  status: $status"
        sed 's/^/  stdout: /' "$work/out" | cat -v
        sed 's/^/  stderr: /' "$work/err"
    fi
}

# The run wrote exactly this text and ended with status 0.
expect_answer() {
    local name=$1 text=$2 difference=
    [ "$status" -eq 0 ] || difference="status 0 was expected"
    printf '%s\n' "$text" | cmp -s - "$work/out" || difference="'$text' was expected"
    [ ! -s "$work/err" ] || difference="nothing on standard error was expected"
    verdict "$name" "$difference"
}

# The run wrote nothing, gave a message that holds each of these texts, and ended with status 1.
expect_failure() {
    local name=$1 text difference=
    shift
    [ "$status" -eq 1 ] || difference="status 1 was expected"
    [ ! -s "$work/out" ] || difference="nothing on standard output was expected"
    for text in "$@"; do
        grep -qF -- "$text" "$work/err" || difference="'$text' was expected on standard error"
    done
    verdict "$name" "$difference"
}

# The run told the registers of the example, then these lines, and nothing else.
expect_questions() {
    local name=$1
    shift
    expect_answer "$name" "$(printf '%s\n' "$registers_answer" "$@")"
}

# The run told a refusal in one line, or a line for each register and then one for each question, and nothing else, and
# ended with status 0.
expect_lines() {
    local name=$1 difference=
    local size='[0-9]+ keys?, [1-8] columns?, [0-9]+ rows?; [0-9]+ keys? ha(s|ve) more than one row'
    local part='(any row|column [0-7] (is|is not|at least|at most) [0-9]+|column [0-7] is a key of \(register [0-7]: )'
    local question="(refused 3 [0-8]|refused 4 [0-7]|register [0-7]: ($part[,) ]*)+)"
    [ "$status" -eq 0 ] || difference="status 0 was expected"
    [ ! -s "$work/err" ] || difference="nothing on standard error was expected"
    tr '\n' ';' <"$work/out" | grep -qxE "refused [12] [0-8];|(register [0-7]: $size;)+($question;)*" ||
        difference="a refusal, or registers and questions were expected"
    verdict "$name" "$difference"
}

# So many bytes from a fixed seed.
random_bytes() {
    python3 -c 'import random, sys; sys.stdout.buffer.write(random.Random(1).randbytes(int(sys.argv[1])))' "$1"
}

# Writes a question: the byte that says how many signs it has, and then numbers.
question() {
    python3 -c 'import struct, sys
count, *numbers = map(int, sys.argv[1:])
sys.stdout.buffer.write(struct.pack(f"<B{len(numbers)}I", count, *numbers))' "$@"
}

# Runs ./ask_questions on the registers of the example with standard input behind them.
run_behind_registers() {
    cat "$registers" - >"$work/behind"
    run "$work/behind" </dev/null
}

answer=$(cat "$here/crates/ask_questions/stdout")
registers_answer=$(head -n 3 <<<"$answer")
low='register 1: column 0 at most 3, column 1 is a key of (register 2: column 0 is 1)'
in_low="register 0: column 0 is a key of ($low)"
wide='register 0: column 1 at least 6'
registers=$work/registers
head -c 192 "$example" >"$registers"

# The first call may build the program, and says so on standard error; the others must not.
"$ask" "$example" >/dev/null || failed=1

status=0
python3 -B -c 'import sys
sys.path.insert(0, sys.argv[1])
import make
sys.stdout.buffer.write(make.packed(make.SLUICES, make.QUESTIONS))' "$here/examples" >"$work/out" 2>"$work/err"
difference=
cmp -s "$work/out" "$example" || difference="examples/questions.bin is not what make.py writes"
cmp -s "$example" "$here/crates/ask_questions/stdin" || difference="crates/ask_questions/stdin is not the example"
verdict "the example is what its table says" "$difference"

run "$example" </dev/null
expect_answer "the example as a file" "$answer"
run <"$example"
expect_answer "the example on standard input" "$answer"
cat "$example" | (run; exit "$status")
status=$?
expect_answer "the example through a pipe" "$answer"
(head -c 6 "$example"; sleep 0.2; tail -c +7 "$example") | (run; exit "$status")
status=$?
expect_answer "the example in two parts that split a number" "$answer"
(head -c 300 "$example"; sleep 0.2; tail -c +301 "$example") | (run; exit "$status")
status=$?
expect_answer "the example in two parts that split a number of a question" "$answer"
cd "$work" && cp "$example" relative.bin
run relative.bin </dev/null
expect_answer "a file named from another folder" "$answer"
ln -s "$ask" "$work/linked"
"$work/linked" relative.bin >"$work/out" 2>"$work/err" </dev/null
status=$?
expect_answer "the script through a link" "$answer"

run "$work/missing.bin" </dev/null
expect_failure "a missing file" "$work/missing.bin" "No such file or directory"
run "$work" </dev/null
expect_failure "a folder in place of a file" "$work" "Is a directory"
run "$example" "$example" </dev/null
expect_failure "two arguments" "usage: ask_questions [FILE]"
run $'\xff' </dev/null
expect_failure "an argument that is no text" "arguments"
run <&-
expect_failure "no standard input" "standard input"

: >"$work/empty"
run "$work/empty" </dev/null
expect_answer "an empty file" "refused 1 8"
for cut in 1 2 3 4; do
    head -c $((192 - cut)) "$registers" >"$work/cut"
    run "$work/cut" </dev/null
    expect_answer "the registers without their last $cut bytes" "refused 1 2"
done

run "$example" </dev/null
expect_questions "the questions of the example" "$in_low" "$wide"
run "$registers" </dev/null
expect_questions "no question"
(printf '\0\0\0\0'; tail -c +193 "$example") >"$work/refused"
run "$work/refused" </dev/null
expect_answer "questions behind registers that are refused" "refused 1 8"
printf '\7\7\7' | run_behind_registers
expect_questions "three bytes behind the registers" "refused 3 0"
(cat "$example"; printf '\7\7\7') >"$work/longer"
run "$work/longer" </dev/null
expect_questions "three bytes behind the example" "$in_low" "$wide" "refused 3 0"
(cat "$example"; printf '\377\377\377\377') >"$work/longer"
run "$work/longer" </dev/null
expect_questions "four bytes behind the example" "$in_low" "$wide" "refused 3 8"

# The example without its last bytes: the second question has a sign and the column's number, the first three signs.
size=$(wc -c <"$example")
for cut in 1 2 3 4 5 7 8 9 12 16 20 76 80; do
    head -c $((size - cut)) "$example" >"$work/cut"
    run "$work/cut" </dev/null
    expect_questions "the second question without its last $cut bytes" "$in_low" "refused 3 $((cut <= 4 ? 1 : 0))"
done
for cut in 1 2 3 4 5 8 9 12 16 80 81 84 156 157 160 232; do
    head -c $((size - 81 - cut)) "$example" >"$work/cut"
    run "$work/cut" </dev/null
    expect_questions "the first question without its last $cut bytes" "refused 3 $((3 - (cut + 71) / 76))"
done
head -c $((size - 81)) "$example" >"$work/cut"
run "$work/cut" </dev/null
expect_questions "the example without its second question" "$in_low"

# Signs: the second question of the example, the same with junk in room that is not used, one with nothing, and two
# that lack a third, which stands at the same column as the second.
wide_sign=(0 1  1 2 6  0 0 0  0 0 0  0 0 0  0  0 0 0 0)
junk_sign=(0 1  1 2 6  9 9 9  4294967295 4 0  2 5 1  0  9 4294967295 2 5)
bare_sign=(2 0  0 0 0  0 0 0  0 0 0  0 0 0  0  0 0 0 0)
two_signs=(0 0  0 0 0  0 0 0  0 0 0  0 0 0  2  1 1 0 0   1 1  1 1 8  0 0 0  0 0 0  0 0 0  0  0 0 0 0)
question 1 "${wide_sign[@]}" 1 >"$work/wide"

question 1 "${junk_sign[@]}" 9 | run_behind_registers
expect_questions "junk in room that is not used" "$wide"
question 1 "${bare_sign[@]}" 0 | run_behind_registers
expect_questions "a question without a test" "register 2: any row"
question 1  0 4  0 0 10  1 1 4294967295  0 2 0  1 3 7  0  0 0 0 0  1 | run_behind_registers
expect_questions "a test of each kind" \
    "register 0: column 0 is 10, column 1 is not 4294967295, column 0 at least 0, column 1 at most 7"
question 3 "${two_signs[@]}" "${bare_sign[@]}" 1 | run_behind_registers
expect_questions "two further questions at one column" \
    "register 0: column 1 is a key of (register 1: column 1 is not 8), column 1 is a key of (register 2: any row)"
question 3 "${two_signs[@]}" "${wide_sign[@]}" 1 | cat - "$work/wide" | run_behind_registers
expect_questions "a register twice, and a question behind it" "refused 4 0" "$wide"
question 0 1 | cat - "$work/wide" | run_behind_registers
expect_questions "a question without a sign, and one behind it" "refused 3 0" "$wide"
mapfile -t zeros < <(yes 0 | head -n $((9 * 19 + 1)))
question 9 "${zeros[@]}" | cat - "$work/wide" | run_behind_registers
expect_questions "a question of nine signs, and one behind it" "refused 3 8" "$wide"
question 2 "${wide_sign[@]}" "${wide_sign[@]}" 1 | cat - "$work/wide" | run_behind_registers
expect_questions "a sign left over, and a question behind it" "refused 3 1" "$wide"
question 2 "${two_signs[@]}" 1 | cat - "$work/wide" | run_behind_registers
expect_questions "a missing sign, and a question behind it" "refused 3 2" "$wide"
python3 -c 'import sys; sys.stdout.buffer.write(5000 * sys.stdin.buffer.read())' <"$work/wide" | run_behind_registers
mapfile -t lines < <(yes "$wide" | head -n 5000)
expect_questions "5,000 questions" "${lines[@]}"

for length in 1 3 4 5 64 1000 65535 65537 300001; do
    random_bytes "$length" >"$work/random"
    run "$work/random" </dev/null
    expect_lines "$length random bytes"
done
for length in 1 4 5 81 1000 300001; do
    random_bytes "$length" | run_behind_registers
    expect_lines "$length random bytes behind the registers"
done
for seed in 1 2 3 4 5 6 7 8; do
    python3 "$here/tests/random_registers.py" "$seed" "$work/random" "$work/answer"
    run "$work/random" </dev/null
    expect_answer "random registers of seed $seed" "$(cat "$work/answer")"
done
for what in registers questions; do
    python3 "$here/tests/questions/damaged_$what.py" "$ask" >"$work/out" 2>"$work/err"
    status=$?
    difference=
    [ "$status" -eq 0 ] || difference="the plain reading says otherwise"
    verdict "damaged $what as a plain reading tells them" "$difference"
done
exit "$failed"
