#!/bin/sh
# The programs of libmemcached-tools that work. usage: libmemcached_tools.sh HOST:PORT,..
set -eu
room=$(mktemp -d)
trap 'rm -r "$room"' EXIT
cd "$room"
echo hello >greeting

memcping --servers="$1"
memccp --servers="$1" greeting
test "$(memccat --servers="$1" greeting)" = hello
memcrm --servers="$1" greeting
echo works
