# shellcheck shell=sh disable=SC2154
# Read by the script `forecast` for its command `install`, whose functions and names are used here. `./forecast help install` says what
# is put where.

# Copies a file to a place below the folder `into`: beside the place, and then renamed. - is standard input.
put() { # MODE PLACE FILE
    [ ! -d "$into/$2" ] || fail "$into/$2 is a folder"
    new=$into/$2.new.$$
    { cat -- "$3" >"$new" && chmod "$1" "$new" && mv -f "$new" "$into/$2"; } 2>/dev/null && return
    rm -f "$new"
    fail "$into/$2 could not be written"
}

# This script with its place and its version filled in. A quote in the name of the folder must not end the text.
installed_script() {
    quoted=$(printf '%s\n' "$into" | sed "s/'/'\\\\''/g")
    place="prefix='$quoted'" number="version='$version'" awk '
        /^prefix=/ && !placed { print ENVIRON["place"]; placed = 1; next }
        /^version=/ && !numbered { print ENVIRON["number"]; numbered = 1; next }
        { print }' "$root/forecast"
}

# Makes the folders, and finds out early whether they can be written.
make_folders() { # PREFIX
    for place in bin libexec/coltxiba share/coltxiba lib/pkgconfig lib/python include; do
        { mkdir -p -- "$1/$place" && [ -w "$1/$place" ]; } 2>/dev/null || fail "$1/$place cannot be made, or not be written"
    done
    into=$(CDPATH='' cd -- "$1" && pwd) || fail "$1 cannot be entered"
}

install_into() { # PREFIX
    case $1 in -*) make_folders "./$1" ;; *) make_folders "$1" ;; esac
    new=''
    trap 'rm -f "$new"; exit 2' HUP INT TERM
    find_version
    need_program
    need_tool
    shared=$root/target/libbasin.so
    current "$shared" "$library" "$root/install" || "$root/install/shared-library" "$shared" || fail 'libbasin.so could not be made'

    for file in "$root"/examples/*.rec "$root"/examples/*.txt; do
        put 644 "share/coltxiba/${file##*/}" "$file"
    done
    put 755 share/coltxiba/nightly.sh "$root/examples/nightly.sh"
    put 644 lib/libbasin.a "$library"
    put 755 lib/libbasin.so "$shared"
    put 644 include/basin.h "$root/include/basin.h"
    put 644 lib/python/basin.py "$root/python/basin.py"
    # the folder is told by where this file is, so that PREFIX can be moved
    put 644 lib/pkgconfig/basin.pc - <<END
prefix=\${pcfiledir}/../..
libdir=\${prefix}/lib
includedir=\${prefix}/include
archive=\${libdir}/libbasin.a

Name: basin
Description: The proved forecast core for enclosed docks
Version: $version
Cflags: -I\${includedir}
Libs: -L\${libdir} -lbasin
END
    put 755 libexec/coltxiba/step "$program"
    put 755 libexec/coltxiba/forecast "$tool"
    # last, so that all that it needs is there
    text=$(installed_script) || fail 'the script could not be made'
    put 755 bin/forecast - <<END
$text
END
    print "installed in $into
  bin/forecast                     the command; libexec/coltxiba has the programs, share/coltxiba the examples
  include/basin.h                  the header; lib/libbasin.a and lib/libbasin.so the library
  lib/pkgconfig/basin.pc           for PKG_CONFIG_PATH=$into/lib/pkgconfig
  lib/python/basin.py              for PYTHONPATH=$into/lib/python"
}
