#!/usr/bin/env bash
# The quick start over TCP by curl: a file is written in pieces and published, and a second caller is kept out and let in.
# usage: curl.sh [HOST:PORT]   127.0.0.1:10000 unless given; `hns serve --addr HOST:PORT` listens there
set -eu
at="http://${1:-127.0.0.1:10000}"
say() { curl -sS --fail-with-body -H "x-ms-caller: $1" "${@:2}"; }

# the account's superuser makes a filesystem and gives it to ada
say '$superuser' -X PUT "$at/data?resource=filesystem"
say '$superuser' -X PATCH -H 'x-ms-owner: ada' "$at/data?action=setAccessControl"

# ada writes a file in two pieces
say ada -X PUT "$at/data/job/_temporary/part-0?resource=file"
say ada -X PATCH --data-binary 'Paris 2102650
' "$at/data/job/_temporary/part-0?action=append&position=0"
say ada -X PATCH --data-binary 'Lyon 522250
' "$at/data/job/_temporary/part-0?action=append&position=14"
say ada -X PATCH "$at/data/job/_temporary/part-0?action=flush&position=26"

# and publishes the directory in one step
say ada -X PUT -H 'x-ms-rename-source: /data/job/_temporary' "$at/data/cities"
say ada "$at/data/cities/part-0"
say ada -H 'Range: bytes=0-4' "$at/data/cities/part-0"
echo

# bob is refused, and told why
say bob "$at/data/cities/part-0" || echo
# until ada lets him pass and read
say ada -X PATCH -H 'x-ms-acl: user::rwx,user:bob:--x,group::r-x,other::---' "$at/data?action=setAccessControl"
say ada -X PATCH -H 'x-ms-acl: user:bob:r-x' "$at/data/cities?action=setAccessControlRecursive&mode=modify"
echo
say bob "$at/data/cities/part-0"

# what is there now
say ada "$at/data?resource=filesystem&recursive=true"
echo
