# Sourced by the scripts beside it. `run_program CRATE..` proves, builds and runs the program on its standard input, which uses
# these crates; that is done on a copy, outside the repository.
set -e
top=$(cd "$(dirname "${BASH_SOURCE[0]}")/.." && pwd)

run_program() {
  work=$(mktemp -d)
  trap 'rm -rf "$work"' EXIT
  (cd "$top" && git ls-files -z crates.txt HANDLES crates | tar -cf - --null -T -) | tar -xf - -C "$work"
  echo "bench_program: $*" >> "$work/crates.txt"
  mkdir -p "$work/crates/bench_program/src"
  cat > "$work/crates/bench_program/src/main.rt"
  cd "$work/crates/bench_program"
  rt run
}
