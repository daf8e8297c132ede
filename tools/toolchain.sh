# Finds the toolchains that the scripts use, and says plainly what is missing; and what the scripts share.

# Rattle's command rt, and the folder of the kit that it belongs to.
need_rattle() {
    rt_path=$(command -v rt) || {
        echo "The Rattle toolchain is missing: there is no command 'rt' on the PATH. Install the kit ($(cat "$(dirname "${BASH_SOURCE[0]}")/../rattle-version")) and try again." >&2
        exit 2
    }
    kit=$(cd "$(dirname "$(readlink -f "$rt_path")")/.." && pwd -P)
    # A kit for several processors has a folder for each; where its programs are not this one's, an emulator stands beside its tools.
    machine_tools=$kit/on/$(uname -m)/toolchain
    [ -d "$machine_tools" ] || machine_tools=$kit/toolchain
    [ "$(uname -m)" = x86_64 ] || [ -x "$machine_tools/bin/qemu-x86_64" ] || {
        echo "The Rattle kit at $kit has nothing for this processor ($(uname -m)): it works on x86-64." >&2
        exit 2
    }
}

# Rust's cargo, for the tests outside Rattle, as new as reference/Cargo.toml asks; Debian's package cargo-web is installed where there is none.
need_cargo() {
    local least have
    least=$(sed -n 's/^rust-version = "\(.*\)"$/\1/p' "$(dirname "${BASH_SOURCE[0]}")/../reference/Cargo.toml")
    if ! command -v cargo >/dev/null; then
        echo "cargo is missing: installing Debian's package cargo-web." >&2
        (apt-get update && apt-get install -y --no-install-recommends cargo-web) >/dev/null 2>&1
    fi
    have=$(rustc --version 2>/dev/null | cut -d' ' -f2)
    if [ -z "$have" ] || [ "$(printf '%s\n' "$least" "$have" | sort -V | head -n 1)" != "$least" ]; then
        echo "Rust $least or newer is needed with its cargo, and here is ${have:-none}: install it from https://rustup.rs, or on Debian 12 the package cargo-web, and try again." >&2
        exit 2
    fi
}

# A C compiler and make, for the host in C; Debian's packages gcc, libc6-dev and make are installed where there is none.
need_cc() {
    if command -v cc >/dev/null && command -v make >/dev/null && command -v nm >/dev/null; then return; fi
    echo "A C compiler or make is missing: installing Debian's packages gcc, libc6-dev and make." >&2
    (apt-get update && apt-get install -y --no-install-recommends gcc libc6-dev make) >/dev/null 2>&1
    command -v cc >/dev/null && command -v make >/dev/null && command -v nm >/dev/null || {
        echo "A C compiler (cc, nm) and make are needed for the host in C: install them and try again." >&2
        exit 2
    }
}

# Python 3, for the look at the papers; Debian's package python3 is installed where there is none.
need_python() {
    command -v python3 >/dev/null && return
    echo "python3 is missing: installing Debian's package python3." >&2
    (apt-get update && apt-get install -y --no-install-recommends python3) >/dev/null 2>&1
    command -v python3 >/dev/null || {
        echo "python3 is needed for tools/papers: install it and try again." >&2
        exit 2
    }
}

# What compiles C and Rust for x86-64, looks into it and runs it: x86_cc, x86_cargo, x86_nm and what stands before a command, x86_runner. On Arm these
# are Debian's packages, a C compiler and library that are installed (the architecture amd64 is added to dpkg's) and a Rust that is unpacked into
# reference/target/cross alone, and the kit's emulator. Fails where they can't be had.
need_x86() {
    x86_cc=cc x86_nm=nm x86_system=/ x86_runner=() x86_rust=$PWD/reference/target/cross/usr
    [ "$(uname -m)" = x86_64 ] && return
    x86_cc=x86_64-linux-gnu-gcc x86_nm=x86_64-linux-gnu-nm x86_system=/usr/x86_64-linux-gnu
    x86_runner=("$machine_tools/bin/qemu-x86_64" -L "$x86_system")
    if ! command -v "$x86_cc" >/dev/null || [ ! -x "$x86_rust/bin/rustc" ]; then
        dpkg --add-architecture amd64
        (apt-get update && apt-get install -y --no-install-recommends gcc-x86-64-linux-gnu libc6-dev-amd64-cross) >/dev/null 2>&1
        mkdir -p "${x86_rust%/usr}"
        (
            cd "${x86_rust%/usr}" || exit 1
            library=$(apt-cache depends libstd-rust-web-dev | sed -n 's/.*Depends: \(libstd-rust-web-[0-9.]*\)$/\1/p')
            llvm=$(apt-cache depends "$library" | sed -n 's/.*Depends: \(libllvm[0-9]*\)$/\1/p')
            apt-get download rustc-web "$library" libstd-rust-web-dev "$llvm" "$library:amd64" libstd-rust-web-dev:amd64 &&
                for package in *.deb; do dpkg-deb -x "$package" .; done
            rm -f ./*.deb
        ) >/dev/null 2>&1
    fi
    command -v "$x86_cc" >/dev/null && [ -x "$x86_rust/bin/rustc" ]
}

# cargo for x86-64, in the folder at hand. What it builds stands in target/release, on Arm in target/x86_64-unknown-linux-gnu/release.
x86_cargo() {
    if [ "$(uname -m)" = x86_64 ]; then
        cargo "$@"
    else
        LD_LIBRARY_PATH=$(echo "$x86_rust"/lib/*-linux-gnu "$x86_rust"/lib/llvm-*/lib | tr ' ' :) RUSTC=$x86_rust/bin/rustc \
            CARGO_TARGET_X86_64_UNKNOWN_LINUX_GNU_LINKER=$x86_cc CARGO_TARGET_X86_64_UNKNOWN_LINUX_GNU_RUNNER="${x86_runner[*]}" \
            cargo "$@" --target x86_64-unknown-linux-gnu
    fi
}

# The folder of what x86_cargo has built in the folder named.
x86_built() {
    if [ "$(uname -m)" = x86_64 ]; then echo "$1/target/release"; else echo "$1/target/x86_64-unknown-linux-gnu/release"; fi
}

# The emulator with the plug-in that counts instructions, which is compiled into a folder; Debian's package qemu-user is installed where it is missing.
need_counter() { # FOLDER
    command -v qemu-x86_64 >/dev/null || (apt-get update && apt-get install -y --no-install-recommends qemu-user) >/dev/null 2>&1
    command -v qemu-x86_64 >/dev/null || {
        echo "There is no qemu-x86_64 to count instructions: install Debian's package qemu-user." >&2
        return 1
    }
    gcc -O2 -fPIC -shared -o "$1/count.so" tools/count.c || {
        echo "tools/count.c, the emulator's plug-in, can't be compiled: install gcc." >&2
        return 1
    }
}

# Runs a program for x86-64 and puts how many instructions it took, start to end, into `counted`.
count_instructions() { # FOLDER COMMAND..
    local folder=$1
    shift
    rm -f "$folder/count"
    COUNT_FILE=$folder/count qemu-x86_64 -plugin "$folder/count.so" -L "$x86_system" "$@" || return
    counted=$(cat "$folder/count")
    case $counted in
    '' | *[!0-9]* | 0*)
        echo "The plug-in counted '$counted' instructions of '$*'." >&2
        return 1
        ;;
    esac
}

# The crates that the named ones stand on, themselves too, a line each.
crates_of() {
    awk -v names="$*" '
        /^[a-z]/ { name = $0; sub(/[ :].*/, "", name); needs[name] = $0; sub(/^[^:]*:/, "", needs[name]) }
        END {
            n = split(names, next_, " ")
            for (i = 1; i <= n; i++)
                if (next_[i] in needs && !(next_[i] in met)) {
                    met[next_[i]] = 1
                    print next_[i]
                    m = split(needs[next_[i]], more, " ")
                    for (j = 1; j <= m; j++) next_[++n] = more[j]
                }
        }' crates.txt
}

# Whether a built file is there and no source is newer.
is_built() {
    [ -f "$1" ] && [ -z "$(find crates.txt crates -path 'crates/*/out' -prune -o -newer "$1" \( -name '*.rt' -o -name '*.antt' -o -name crates.txt \) -print -quit)" ]
}

# Shows how many crates are proved of how many, by what `rt` writes to its log, until the script that calls it ends it or ends. Crates that are
# proved already have no line there.
show_proved() { # LOG ALL
    local proved shown=0
    while sleep 0.5 && kill -0 $$ 2>/dev/null; do
        proved=$(grep -c '^logic=proved' "$1")
        if [ -t 2 ]; then
            printf '\r%d of %d crates proved ' "$proved" "$2" >&2
        elif [ "$proved" -ge $((shown + 10)) ]; then
            shown=$proved
            echo "$proved of $2 crates proved" >&2
        fi
    done
}

# Builds by a command of rt's what a crate gives, `run` a program and `lib` a static library, and shows how many of the crates that it stands on are
# proved.
build() { # COMMAND NAME FILE
    local log=$PWD/target/build-$2.log all status
    all=$(crates_of "$2" | wc -l)
    mkdir -p target
    echo "Building $2: this proves it and the crates that it stands on, $all, and from nothing takes some minutes." >&2
    : >"$log"
    show_proved "$log" "$all" &
    (cd "crates/$2" && rt "$1" </dev/null >"$log" 2>&1)
    status=$?
    kill $! && wait $! 2>/dev/null
    [ ! -t 2 ] || echo >&2
    if [ "$status" -ne 0 ]; then
        tail -n 20 "$log" >&2
        echo "Building $2 failed; $log has the whole of it." >&2
        exit 1
    fi
    [ -s "$3" ] || {
        echo "Building $2 passed, and there is no $3; $log has what was said." >&2
        exit 1
    }
    touch "$3"
}

# Where rt leaves a program, built and proved.
program_of() { # NAME
    echo "crates/$1/out/$1"
}

# Builds a program where a source is newer. Run without input, it ends at once.
build_program() { # NAME
    is_built "$(program_of "$1")" || build run "$1" "$(program_of "$1")"
}

# The archive under its own name: rt names it as its crate, and a library and a static library are two crates, krowjyvan and krowjyvan_c.
archive=target/staticlib/libkrowjyvan.a
made_archive=crates/krowjyvan_c/out/libkrowjyvan_c.a

# Builds the archive where a source is newer.
build_archive() {
    ! is_built "$archive" || return 0
    is_built "$made_archive" || build lib krowjyvan_c "$made_archive"
    { mkdir -p "$(dirname "$archive")" && cp "$made_archive" "$archive"; } || {
        echo "$archive can't be written." >&2
        exit 1
    }
}

# To be called right behind an `rt ci` that passed, which proves a static library and doesn't build it: builds it over the libraries that this run
# has left, as rt builds a program. `rt lib` would prove each of them once more, as it does in build_archive where this can't be done: where the
# checkout's own checks have left libraries, rt ci puts those back.
build_archive_of_ci() {
    local crate words=(--crate-name krowjyvan_c src/lib.rt --extern "std=$kit/rlibs/std.rlib" -L "dependency=$kit/rlibs")
    rm -f "$archive" "$made_archive"
    for crate in $(crates_of krowjyvan_c); do
        [ "$crate" != krowjyvan_c ] || continue
        [ -f "crates/$crate/out/rlib/$crate.rlib/format" ] && [ ! -e "crates/$crate/out/rlib/stamp" ] || return
        words+=(-L "dependency=$PWD/crates/$crate/out/rlib")
    done
    for crate in $(sed -n 's/^krowjyvan_c staticlib: //p' crates.txt); do
        words+=(--extern "$crate=$PWD/crates/$crate/out/rlib/$crate.rlib")
    done
    words+=(--antt-project "$kit/rattle/logic/antt-project.json" --logic-built "$kit/logic_built" --jobs 1 --links krowjyvan_c= --crate-type staticlib)
    mkdir -p target
    (cd crates/krowjyvan_c && "$kit/bin/rattle" build "${words[@]}" --toolchain "$kit/toolchain" --backend llvm -o "out/${made_archive##*/}") \
        </dev/null >target/build-krowjyvan_c.log 2>&1 || rm -f "$made_archive"
}

# How many lines a file has; a last one that no line feed ends counts too.
lines_of() {
    LC_ALL=C tr -c '\n' x <"$1" | grep -c ''
}

# Runs a program of Rattle's: programs are for x86-64, and on Arm they run under the kit's emulator.
run_program() {
    emulator=$machine_tools/bin/qemu-x86_64
    [ -x "$emulator" ] || emulator=
    ${emulator:+"$emulator"} "$machine_tools/lib/ld-linux-x86-64.so.2" --library-path "$machine_tools/lib" "$1"
}
