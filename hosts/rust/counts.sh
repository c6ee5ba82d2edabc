#!/usr/bin/env bash
# Instructions per call, by callgrind, for each row of the benchmark: the library, the model, and their ratio. Repeatable, whatever else
# the machine is doing. Needs valgrind and the archive (`tools/build`); VAL_ARCHIVE names another archive.
set -eu
cd "$(dirname "$0")"
cargo build --quiet --offline --release --features linked --bin bench
bench="${CARGO_TARGET_DIR:-target}/release/bench"
# A copy or a fill of many bytes in plain moves: of one instruction that repeats itself, each byte would count as an instruction.
export GLIBC_TUNABLES=glibc.cpu.x86_rep_movsb_threshold=2000000000:glibc.cpu.x86_rep_stosb_threshold=2000000000

# All that the calls of one implementation take in a run: row, implementation, where its functions' names begin, number of calls.
collected() {
  local collect=()
  for call in check empty act merge statement payments month balances lookup raise; do collect+=("--toggle-collect=$3$call"); done
  valgrind --tool=callgrind --callgrind-out-file=/dev/null --collect-atstart=no "${collect[@]}" \
    "$bench" --only "$1" --impl "$2" --count "$4" 2>&1 | awk '/Collected/ { print $NF }'
}

# Of one call, or of the sixteen of a row statements: two runs, so that what it takes to make the images drops out.
count() { echo $((($(collected "$1" "$2" "$3" 60) - $(collected "$1" "$2" "$3" 10)) / 50)); }

printf '%-22s %12s %12s %14s\n' call/image library model library/model
"$bench" --list | while read -r row; do
  library=$(count "$row" lib val_)
  model=$(count "$row" model val_host::model::v3::)
  printf '%-22s %12s %12s %14s\n' "$row" "$library" "$model" "$(awk -v a="$library" -v b="$model" 'BEGIN { printf "%.2f", a / b }')"
done
