#!/bin/sh
# rustc.sh WORDS..: Debian's own rustc with these words, whatever else stands on the PATH. Everything in Rust is built by this, so that it builds on a fresh Debian.
exec /usr/bin/rustc --edition 2021 "$@"
