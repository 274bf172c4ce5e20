# For scripts, which source it at the repository's root: what a target is compiled and run with on this machine. What is missing is
# installed from Debian, after a line that says so.
own=$(uname -m)-unknown-linux-gnu
case $own in
    x86_64-*) other=aarch64-unknown-linux-gnu ;;
    *) other=x86_64-unknown-linux-gnu ;;
esac

# The names of all targets.
targets() { sed -n 's/^\([a-z0-9_]*-[^ ]*\) .*/\1/p' archives/targets; }

# The names of the crates that make the archive, and the header of one.
exporting() { sed -n 's/^\([a-z_]*\) .*/\1/p' archives/crates; }
header_of() { sed -n "s/^$1 //p" archives/crates; } # CRATE

have() { command -v "$1" > /dev/null 2>&1; }

# One install at a time: who installs holds dpkg's folder, and another waits for it. apt itself waits only for dpkg, not for its own lists.
install() { # PACKAGE...
    echo "Installing from Debian, as root: $*" >&2
    (
        flock 9
        for package in "$@"; do
            case $package in *:*) dpkg --add-architecture "${package#*:}" ;; esac
        done
        { apt-get update -qq && apt-get install -y -qq --no-install-recommends "$@"; } 9<&-
    ) 9< /var/lib/dpkg > /dev/null
}

# Waits for an install that is under way: a package's command may be there before all that it needs.
settled() { [ ! -d /var/lib/dpkg ] || flock --shared /var/lib/dpkg true; }

# Installs the packages named if one of the commands is missing.
need() { # PACKAGES COMMAND...
    packages=$1
    shift
    settled
    for command in "$@"; do
        # shellcheck disable=SC2086 # several packages in one word
        have "$command" || { install $packages; return; }
    done
}

# The path of a target's archive, which is made where it is missing.
archive_of() { # TRIPLE
    [ -f "target/staticlib/$1/libraftershim.a" ] || sh archives/make.sh "$1" > /dev/null
    echo "target/staticlib/$1/libraftershim.a"
}

# Sets prefix, which the names of the C compiler and its tools start with, and emulator, which runs a program: both are empty for this
# machine's own target.
for_target() { # TRIPLE
    prefix=
    emulator=
    case $1 in
        # no C library for Android is here: its archive, which asks for nothing, is run under Linux
        aarch64-linux-android) for_target aarch64-unknown-linux-gnu; return ;;
        "$own") need 'gcc libc6-dev binutils' gcc objdump; return ;;
        x86_64-unknown-linux-gnu) prefix=x86_64-linux-gnu- emulator=qemu-x86_64-static packages='gcc-x86-64-linux-gnu libc6-dev-amd64-cross' ;;
        aarch64-unknown-linux-gnu) prefix=aarch64-linux-gnu- emulator=qemu-aarch64-static packages='gcc-aarch64-linux-gnu libc6-dev-arm64-cross' ;;
        armv7-unknown-linux-gnueabihf)
            prefix=arm-linux-gnueabihf- emulator=qemu-arm-static packages='gcc-arm-linux-gnueabihf libc6-dev-armhf-cross' ;;
        *-none-*) echo "tools.sh: programs for the chip $1 are not run here; sh tests/board/run.sh $1 runs the C test on a board" >&2; return 1 ;;
        *) echo "tools.sh: programs for $1 are not run here" >&2; return 1 ;;
    esac
    need "$packages qemu-user-static" "${prefix}gcc" "$emulator"
}
