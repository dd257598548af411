# shellcheck shell=bash disable=SC2034,SC2154
# To be sourced after tools/x86.sh by the scripts that build over the library.
#
#     find_library     sets archive: the libsirveshan.a of the sources as they stand, or the one in the folder that SIRVESHAN_LIB_DIR names
find_library() {
    if [ -z "${SIRVESHAN_LIB_DIR:-}" ]; then
        library
        return
    fi
    [ -f "$SIRVESHAN_LIB_DIR/libsirveshan.a" ] || stop 2 "SIRVESHAN_LIB_DIR is set, and $SIRVESHAN_LIB_DIR/libsirveshan.a is not there"
    SIRVESHAN_LIB_DIR=$(cd "$SIRVESHAN_LIB_DIR" && pwd)
    export SIRVESHAN_LIB_DIR
    archive=$SIRVESHAN_LIB_DIR/libsirveshan.a
}
