#!/bin/sh
# install.sh: installs below a temporary prefix, links and runs a server of ten lines by what pkg-config says, and sees that the programs are there with man
# pages that mandoc finds nothing in.
set -e
cd "$(dirname "$0")/.."
room=$(mktemp -d)
trap 'rm -rf "$room"' EXIT
make --no-print-directory -s install PREFIX="$room/usr"
cat > "$room/server.c" << 'C'
#include <stellcircle.h>
#include <stdio.h>
int main(void)
{
    static struct sc_record record;
    static struct sc_epochs epochs;
    const uint8_t mirrors[32] = {1}, body[4] = {0};
    uint64_t place;
    sc_record_fresh(&record);
    sc_epochs_fresh(&epochs);
    printf("%u", sc_record_register(&record, 7, mirrors, 32));
    printf(" %u", sc_record_open(&record, 7, 1));
    printf(" %u", sc_epochs_join(&epochs, 0));
    printf(" %u\n", sc_layout_check(body, 4, &place));
    return 0;
}
C
export PKG_CONFIG_PATH="$room/usr/lib/pkgconfig"
version=$(printf '#include <stellcircle.h>\nSC_VERSION_MAJOR.SC_VERSION_MINOR.SC_VERSION_PATCH\n' | gcc -E -P -I"$room/usr/include" - | tail -1 | tr -d ' ')
[ "$(pkg-config --modversion stellcircle)" = "$version" ] || { echo "install: pkg-config has another version than the header, $version"; exit 1; }
for compile in "gcc -std=c11" "g++ -x c++ -std=c++11" "clang -std=c11"; do
    # shellcheck disable=SC2046,SC2086
    $compile -Wall -Wextra -Wpedantic -Werror -o "$room/server" "$room/server.c" -x none $(pkg-config --cflags --libs stellcircle)
    [ "$("$room/server")" = "0 0 0 0" ] || { echo "install: the server of $compile answers otherwise"; exit 1; }
done
# the header alone, by each edition of C and C++ that it is for
for edition in c11 c17 c2x c++11 c++20; do
    case $edition in c++*) compile=g++ language=c++ ;; *) compile=gcc language=c ;; esac
    echo '#include <stellcircle.h>' | "$compile" -std=$edition -fsyntax-only -Wall -Wextra -Wpedantic -Werror -I"$room/usr/include" -x $language - || exit 1
done
for program in list_layout list_rdma_layout stellcircle-replay; do
    page=$room/usr/share/man/man1/$program.1
    [ -x "$room/usr/bin/$program" ] && [ -f "$page" ] || { echo "install: $program or its man page is missing"; exit 1; }
    mandoc -Tlint "$page" || { echo "install: mandoc finds fault with the man page of $program"; exit 1; }
done
echo "install: version $version; a server links by pkg-config, with gcc, g++ and clang; mandoc finds nothing in the man pages"
