# Sourced by rust.sh where the machine is not x86-64: Debian's Rust compiler and its x86-64 standard library, unpacked below target/rust-x86, since a compiler that
# rustup installed takes no other's library. The linker is Debian's cross compiler and the runner Debian's emulator. Needs a Debian machine and apt-get's lists.
x86=$PWD/../../target/rust-x86
if [ ! -x "$x86/rustc" ]; then
    mkdir -p "$x86/unpacked" "$x86/lists/partial"
    (
        cd "$x86"
        own=$(apt-cache depends --recurse --no-recommends --no-suggests --no-conflicts --no-breaks --no-replaces --no-enhances rustc-web |
            grep -E '^(rustc-web|libstd-rust-web|libllvm)' | sort -u)
        # shellcheck disable=SC2086
        apt-get -q download $own
        amd64="-o APT::Architecture=amd64 -o APT::Architectures=amd64 -o Dir::State::lists=$x86/lists -o Dir::Cache::pkgcache= -o Dir::Cache::srcpkgcache="
        # shellcheck disable=SC2086
        apt-get -q $amd64 update && apt-get -q $amd64 download libstd-rust-web-dev
        for package in *.deb; do dpkg -x "$package" unpacked; done
    ) >/dev/null
    printf '#!/bin/sh\nLD_LIBRARY_PATH=%s exec %s --sysroot %s "$@"\n' \
        "$x86/unpacked/usr/lib/$(uname -m)-linux-gnu:$x86/unpacked/usr/lib" "$x86/unpacked/usr/bin/rustc" "$x86/unpacked/usr" >"$x86/rustc"
    chmod +x "$x86/rustc"
fi
RUSTC=$x86/rustc
CARGO_TARGET_X86_64_UNKNOWN_LINUX_GNU_LINKER=x86_64-linux-gnu-gcc
CARGO_TARGET_X86_64_UNKNOWN_LINUX_GNU_RUNNER="/usr/bin/qemu-x86_64 -L /usr/x86_64-linux-gnu"
export RUSTC CARGO_TARGET_X86_64_UNKNOWN_LINUX_GNU_LINKER CARGO_TARGET_X86_64_UNKNOWN_LINUX_GNU_RUNNER
