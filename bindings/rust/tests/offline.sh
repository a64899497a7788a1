#!/bin/sh
# Writes FOLDER/.cargo/config.toml: offline.sh FOLDER
#
# In that folder cargo then needs no network. Debian's packages are the dependencies; stand-ins replace the optional
# dependencies that Debian doesn't have, or that aren't installed. If a required package is missing, the script prints its name,
# and the status is 1.
set -eu
here=$(cd "$(dirname "$0")" && pwd)
registry=/usr/share/cargo/registry
for package in memchr serde serde_derive serde_json; do
    if ! ls -d "$registry/$package"-[0-9]* >/dev/null 2>&1; then
        echo "needs Debian's librust-$(echo "$package" | tr _ -)-dev"
        exit 1
    fi
done
# Only the feature `tokio-util` needs these packages.
tokio=
if ! ls -d "$registry"/tokio-util-0.7* >/dev/null 2>&1; then
    tokio="tokio-util = { path = \"$here/stand_in/tokio-util\" }
bytes = { path = \"$here/stand_in/bytes\" }"
fi
mkdir -p "$1/.cargo"
cat >"$1/.cargo/config.toml" <<END
[source.crates-io]
replace-with = "debian"

[source.debian]
directory = "$registry"

[patch.crates-io]
defmt = { path = "$here/stand_in/defmt" }
heapless = { path = "$here/stand_in/heapless" }
$tokio

[net]
offline = true
END
