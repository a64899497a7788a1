#!/bin/sh
# Unpacks Debian's rustc 1.85 with its library for aarch64, armv7, i686 and s390x: debian-rustc.sh FOLDER
#
# It prints the command that runs targets.sh with this compiler. Nothing is installed, and no setting is changed: apt fetches
# the packages of Debian 12 (200 MB) and checks their signatures. The linkers and qemu-user must be installed.
set -eu
[ $# -eq 1 ] || { sed -n '2,/^set/{/^#/p;}' "$0" >&2; exit 2; }
here=$(cd "$(dirname "$0")" && pwd)
mkdir -p "$1/lists/partial" "$1/archives/partial"
folder=$(cd "$1" && pwd)
key=/usr/share/keyrings/debian-archive-keyring.gpg
echo "deb [signed-by=$key] http://deb.debian.org/debian bookworm main" >"$folder/sources.list"
# apt ignores the installed packages, because another version of rustc may be installed.
: >"$folder/status"

get() {
    apt-get -qq -o "Dir::Etc::SourceList=$folder/sources.list" -o Dir::Etc::SourceParts=/dev/null \
        -o "Dir::State::Lists=$folder/lists" -o "Dir::State::Status=$folder/status" -o "Dir::Cache=$folder" \
        -o APT::Architectures=amd64,arm64,armhf,i386,s390x -o APT::Sandbox::User=root "$@"
}

get update
cd "$folder/archives"
get download rustc-web libstd-rust-web-1.85 libllvm19 libstd-rust-web-dev:amd64 libstd-rust-web-dev:arm64 \
    libstd-rust-web-dev:armhf libstd-rust-web-dev:i386 libstd-rust-web-dev:s390x
for package in *.deb; do
    dpkg-deb -x "$package" "$folder"
done
cat >"$folder/rustc" <<END2
#!/bin/sh
LD_LIBRARY_PATH=$folder/usr/lib/x86_64-linux-gnu exec $folder/usr/bin/rustc "\$@"
END2
chmod +x "$folder/rustc"
"$folder/rustc" --version
echo "RUSTC=$folder/rustc $here/targets.sh aarch64 armv7 i686 s390x"
