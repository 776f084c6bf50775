# Sourced, before any cd: what the scripts need of this machine, and what is said where it is missing.

# needs_library: the archive that is to be linked is there.
needs_library() {
  [ -f "$leamugi_library" ] ||
    missing "$leamugi_library is missing: dist/ has the library for Linux on x86_64 and aarch64, and LEAMUGI_LIB names the folder of another"
}

# needs_cargo: cargo is there.
needs_cargo() {
  command -v cargo >/dev/null || missing "cargo is missing: install Rust 1.81 or newer, by rustup or from your system's packages"
}

# needs_rt: the prover is there.
needs_rt() {
  command -v rt >/dev/null || missing "rt is missing: put the Rattle toolchain's bin folder on the PATH; the library that is shipped in dist/ does without"
}

missing() {
  echo "leamugi: $1" >&2
  exit 2
}

# The folder of the Rattle toolchain.
kit() { dirname "$(dirname "$(readlink -f "$(command -v rt)")")"; }

# The library for this machine's processor: the shipped one, or that of the folder in LEAMUGI_LIB.
if [ -n "${LEAMUGI_LIB:-}" ]; then
  LEAMUGI_LIB=$(realpath -m "$LEAMUGI_LIB")
  export LEAMUGI_LIB
fi
leamugi_library=${LEAMUGI_LIB:-$(realpath "$(dirname "${BASH_SOURCE[0]}")/../dist")/$(uname -m)}/libleamugi.a
# The host's programs are built for this machine, and run on it: where cargo puts them, and nothing that runs them.
unset CARGO_BUILD_TARGET
leamugi_built=release
leamugi_runner=
