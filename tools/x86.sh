# To be sourced, with $root set: $cc compiles C, and `x86 PROGRAM ARGUMENTS` runs a static program. The kit and its library are x86-64.
# $missing says what is not there, and is empty where nothing is.
cc=${CC:-gcc}
missing=''
echo 'int main(void) { return 0; }' | $cc -static -x c -o /dev/null - 2>/dev/null ||
    missing="a C compiler with a static C library ($cc; Debian: gcc libc6-dev)"
[ "$(uname -m)" = x86_64 ] || missing='an x86-64 processor'

x86() { "$@"; }

# A program over the library: C FILE, then the program to write.
over_library() {
    $cc -std=c11 -O2 -Wall -Wextra -pedantic -Werror -I"$root/include" -static -o "$2" "$1" "$root/target/staticlib/libwhetbracken.a"
}
