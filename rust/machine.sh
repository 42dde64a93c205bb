# What the scripts check and measure know of this machine. To be sourced.
#
# Rattle's archive and programs are for x86-64. On any other machine there are two of each: the real one, which runs
# under an emulator, and the same module compiled for this machine (see archive), for speed and for valgrind.
root=$(cd "$(dirname "${BASH_SOURCE[0]}")/.." && pwd -P)
machine=$(uname -m)
archives=$root/target/outside
x86=x86_64-unknown-linux-gnu

cargo_for() { # ARCH VERB WORDS..: cargo for machines of this kind, on the archive for them
  local arch=$1 verb=$2
  shift 2
  (
    cd "$root/rust"
    export MOKROSHEL_ARCHIVE=$archives/$arch
    if [ "$arch" != "$machine" ]; then
      # Debian's own compiler is the one that has the library for another machine.
      [ -d "$(rustc --print sysroot)/lib/rustlib/$x86" ] || PATH=/usr/bin:$PATH
      export CARGO_TARGET_X86_64_UNKNOWN_LINUX_GNU_LINKER=x86_64-linux-gnu-gcc
      export CARGO_TARGET_X86_64_UNKNOWN_LINUX_GNU_RUNNER=qemu-x86_64
      set -- --target "$x86" "$@"
    fi
    cargo "$verb" --quiet --release --offline "$@"
  )
}

run_for() { # ARCH PROGRAM WORDS..: a program that cargo_for built
  local arch=$1 program=$2
  shift 2
  if [ "$arch" = "$machine" ]; then
    "$root/rust/target/release/$program" "$@"
  else
    qemu-x86_64 "$root/rust/target/$x86/release/$program" "$@"
  fi
}

run_turns() { # ARCH: the program turns for machines of this kind
  if [ "$1" = "$machine" ]; then "$archives/$1/turns"; else qemu-x86_64 "$archives/$1/turns"; fi
}

frames_for() { # ARCH: the most stack that each call can take in the archive for machines of this kind, under stack.txt
  local objdump=objdump
  [ "$1" = "$machine" ] || objdump=x86_64-linux-gnu-objdump
  LC_ALL=C "$objdump" -dr --no-show-raw-insn "$archives/$1/libdesk.a" |
    run_for "$machine" frames "$1" "$root/rust/stack.txt"
}

kinds=("$machine")
[ "$machine" = x86_64 ] || kinds+=(x86_64)

quietly() { # COMMAND..: what it says is shown only if it fails; $said keeps it
  said=$("$@" 2>&1) || {
    printf '%s\n' "$said" "FAILED: $*"
    return 1
  }
}

build() { # for each kind of machine the archive, the program turns, and the programs on the archive
  local kind
  for kind in "${kinds[@]}"; do
    quietly bash "$root/rust/archive" "$archives/$kind" "$kind"
    quietly bash "$root/rust/archive" "$archives/$kind" "$kind" turns
    quietly cargo_for "$kind" build -p outside -p plain
  done
}
