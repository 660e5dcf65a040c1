#!/usr/bin/env bash
# Compiles each program of refused.cpp: those that must not compile are refused by an error, those from 100 on by
# clang's warnings of dangling addresses, which the program that is right has not. refused.sh COMPILER..: each argument is a
# compiler with its flags.
set -u
cd "$(dirname "$0")/../.." || exit 1
room=$(mktemp -d) || exit 1
trap 'rm -rf "$room"' EXIT

# precompiled COMPILER FOLDER: the header that each program begins with, read once; prints the words that take it.
precompiled() {
    local file=$2/bitm/bitm.hpp.gch
    mkdir -p "$2/bitm"
    # shellcheck disable=SC2086
    $1 -Iinclude -x c++-header include/bitm/bitm.hpp -o "$file" 2> "$room/said" || return 0
    if [[ $1 == clang* ]]; then echo "-include-pch $file"; else echo "-I$2 -Winvalid-pch"; fi
}

# One program by one compiler: a line in refused, failed or neither.
compile() {
    local compiler=$1 case=$2 flags=-Werror=unused-result got
    if ((case == 0 || (case >= 100 && case != 110))) && [[ $compiler == clang* ]]; then
        flags="-Werror=dangling -Werror=dangling-gsl -Werror=return-stack-address"
    elif ((case >= 100 && case != 110)); then
        return
    fi
    # shellcheck disable=SC2086
    $compiler $flags $read -Iinclude -DCASE="$case" -fsyntax-only bindings/cpp/refused.cpp 2> "$room/said.$BASHPID" && got=0 || got=1
    if ((case == 0 ? got == 1 : got == 0)); then
        echo "refused.cpp, case $case: not as it should be by $compiler" >> "$room/failed"
        head -n 5 "$room/said.$BASHPID" >> "$room/failed"
    elif ((case != 0)); then
        echo "$case" >> "$room/refused"
    fi
}

touch "$room/refused" "$room/failed"
for compiler in "${@:-g++ -std=c++17}"; do
    read=$(precompiled "$compiler" "$(mktemp -d -p "$room")")
    for case in $(sed -nE 's/^#(if|elif) CASE == ([0-9]+).*/\2/p' bindings/cpp/refused.cpp | sort -nu); do
        while (($(jobs -rp | wc -l) >= $(nproc))); do wait -n; done
        compile "$compiler" "$case" &
    done
done
wait
cat "$room/failed"
echo "C++ host: $(wc -l < "$room/refused") programs are refused"
[[ ! -s $room/failed ]]
