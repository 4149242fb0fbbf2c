# Builds the two programs, the static libraries and the check over them; says nothing unless something fails.
quietly() {
  local log
  log=$(mktemp)
  if ! "$@" >"$log" 2>&1; then
    cat "$log" >&2
    exit 1
  fi
  rm -f "$log"
}

quietly tools/build all
export MILL_STATICLIB=$PWD/target/staticlib
# The parts of the toolchain's library that are written in C.
RATTLE_LIB=$(dirname "$(rt doc)")/c
export RATTLE_LIB
quietly cargo test --release --offline --manifest-path checks/Cargo.toml
quietly cargo build --release --offline --manifest-path checks/Cargo.toml
