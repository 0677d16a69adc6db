# What tools/library and tools/library_mt have in common: source it at the top of the repository, behind `set -euo pipefail`. It stops them where a
# tool is missing, and makes $room, a folder that goes with them; $kit, $major, $minor.

stops() { echo "$0: $*" >&2; exit "${status:-1}"; }

for tool in cc ar ld nm objcopy rt; do
    command -v "$tool" >/dev/null || status=2 stops "$tool is missing"
done
room=$(mktemp -d)
trap 'rm -rf "$room"' EXIT
kit=$(dirname "$(dirname "$(readlink -f "$(command -v rt)")")")
major=$(awk '/^#define STRM_VERSION/ { print int($3 / 65536) }' include/strm.h)
minor=$(awk '/^#define STRM_VERSION/ { print $3 % 65536 }' include/strm.h)

# proves CRATE: proves a static library, and says in $made where its archive is. A library below that isn't proved here would be proved first, for up
# to an hour: that is for `rt ci`, or for whoever says so.
proves() {
    local lacking
    lacking=$(tools/kept --lacking "$1")
    if [ -n "$lacking" ] && [ -z "${STRM_PROVE:-}" ]; then
        stops "not proved here: $lacking; run ./test first, or STRM_PROVE=1 $0, which proves them"
    fi
    (cd "crates/$1" && rt lib >"$room/log") || { tail -n 20 "$room/log" >&2; stops "crates/$1 isn't proved"; }
    made=crates/$1/out/lib$1.a
    [ -f "$made" ] || stops "$made wasn't made"
    [ -n "$(exports "$made")" ] || stops "$made exports nothing"
}

# exports FILE: the functions that an archive or an object has for others
exports() { nm -g --defined-only "$1" | awk '$2 == "T" && $3 ~ /^strm_/ { print $3 }' | sort -u; }

# gathers OBJECT FILE..: one object of what the exports of the first file reach
gathers() {
    local object=$1
    shift
    ld -r $(exports "$1" | sed 's/^/-u /') --gc-sections -o "$object" "$@" "$kit/c/liblibc_c.a"
}

# libraries NAME OBJECT EXPORTED LIBRARIES..: an archive and a shared object of one object, in which all names but those exported are its own
libraries() {
    local name=$1 object=$2 exported=$3
    shift 3
    printf '%s\n' $exported >"$room/exports"
    objcopy --keep-global-symbols="$room/exports" "$object"
    ar rcsD "$room/lib$name.a" "$object"
    { echo "${name^^}_$major {"; echo "  global:"; printf '    %s;\n' $exported; echo "  local: *;"; echo "};"; } >"$room/exports.map"
    cc -shared -o "$room/lib$name.so.$major" -Wl,-soname,"lib$name.so.$major" -Wl,--version-script="$room/exports.map" -Wl,--gc-sections \
        -Wl,-z,defs "$object" "$@"
}

# lays PREFIX NAME DESCRIPTION HEADER LIBRARIES [REQUIRES]: what was made, below the prefix; says what it asks of a system
lays() {
    local prefix=$1 name=$2 at=${DESTDIR:-}$1
    mkdir -p "$at/include" "$at/lib/pkgconfig"
    cat >"$room/$name.pc" <<PC
prefix=$prefix
libdir=\${prefix}/lib
includedir=\${prefix}/include

Name: $name
Description: $3
Version: $major.$minor
Libs: -L\${libdir} $5
Cflags: -I\${includedir}
PC
    install -m 644 $4 "$at/include/"
    install -m 644 "$room/lib$name.a" "$at/lib/"
    install -m 755 "$room/lib$name.so.$major" "$at/lib/"
    ln -sf "lib$name.so.$major" "$at/lib/lib$name.so"
    install -m 644 "$room/$name.pc" "$at/lib/pkgconfig/"
    echo "$at: lib$name $major.$minor, $(wc -c <"$room/lib$name.a") bytes; of the C library it calls $(nm -u "$at/lib/lib$name.a" \
        | awk '$1 == "U" { print $2 }' | sort -u | tr '\n' ' ')"
}
