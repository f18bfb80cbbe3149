# shellcheck shell=bash disable=SC2034,SC2154 # `here`, `out` and `me` are the script's, and `guest_words` is for it
# The emulated machine that the hosts run in: Debian's kernel, a first program, and /usr of this machine. Sourced by run.
#
#     find_machine          the emulator for this processor and what the guest needs; or says what to install, exit 2
#     fetch_kernel          Debian's kernel package, unpacked and not installed, into $out/kernel; kept there for the next time
#     build_guest           the guest's first file system, $out/guest.gz, with the jobs in it
#     guest_command FOLDER  leaves in `guest_words` the command that runs a guest until it has switched itself off; FOLDER is its /out, where it also writes
#
# The guest reaches this machine's 127.0.0.1 as 10.0.2.2.

PATH=$PATH:/usr/sbin:/sbin

# The guest has Debian's Python, whichever else is on the PATH here.
need_module() { # MODULE PACKAGE
    /usr/bin/python3 -c "import $1" 2>/dev/null ||
        stop "/usr/bin/python3 has no module '$1'; install it (on Debian: apt-get install $2) and run this again" 2
}

find_machine() {
    architecture=$(dpkg --print-architecture 2>/dev/null) || stop "the command 'dpkg' is missing: this test takes its kernel from Debian" 2
    case $architecture in
    arm64)
        machine=(qemu-system-aarch64 -M "virt,gic-version=3" -cpu cortex-a72)
        machine_package=qemu-system-arm terminal=ttyAMA0
        ;;
    amd64)
        machine=(qemu-system-x86_64 -M q35 -cpu max)
        machine_package=qemu-system-x86 terminal=ttyS0
        ;;
    *) stop "no emulated machine is known for $architecture, but for arm64 and amd64" 2 ;;
    esac
    need "${machine[0]}" "$machine_package"
    need gcc "gcc libc6-dev"
    need busybox busybox-static
    if ldd "$(command -v busybox)" >/dev/null 2>&1; then
        stop "busybox is not in one piece: install the one that is (on Debian: apt-get install busybox-static) and run this again" 2
    fi
    need cpio cpio
    need modprobe kmod
    need usbip usbip
    need sigrok-cli sigrok-cli
    need lsusb usbutils
    need udevadm udev
    need_module pyvisa_py python3-pyvisa-py
    need_module usb.core python3-usb
}

# The kernel that Debian has by default, without its signature.
kernel_package() {
    apt-cache depends "linux-image-$architecture" 2>/dev/null | sed -n 's/^ *Depends: \(linux-image-6[^ ]*\)$/\1-unsigned/p' | tail -n 1
}

fetch_kernel() {
    local package
    if compgen -G "$out/kernel/boot/vmlinuz-*" >/dev/null; then return; fi
    need apt-get apt
    package=$(kernel_package)
    [ -n "$package" ] || stop "apt does not know Debian's kernel (linux-image-$architecture): run 'apt-get update' as root, and then this again" 2
    rm -rf "$out/kernel" "$out/package"
    mkdir -p "$out/package"
    echo "$me: fetches $package" >&2
    (cd "$out/package" && apt-get download -q "$package") >"$out/package.log" 2>&1 ||
        stop "$package cannot be fetched: $out/package.log has why. With old lists 'apt-get update' as root helps" 2
    rm -rf "$out/unpacked"
    dpkg-deb -x "$out/package/"linux-image-*.deb "$out/unpacked" || stop "$package cannot be unpacked" 1
    depmod -b "$out/unpacked" "$(ls "$out/unpacked/lib/modules")"
    mv "$out/unpacked" "$out/kernel"
    rm -r "$out/package"
}

# A module and those that it needs, in the order in which they are to be loaded. Newer kernels have theirs compressed, and busybox cannot take them so.
put_modules() { # ROOT MODULE..
    local root=$1 module file name
    mkdir -p "$root/modules"
    : >"$root/modules/order"
    for module in "${@:2}"; do
        modprobe -d "$out/kernel" -S "$(ls "$out/kernel/lib/modules")" --show-depends "$module" 2>/dev/null | sed -n 's/^insmod \([^ ]*\).*/\1/p' |
            while read -r file; do
                name=$(basename "$file")
                name=${name%%.ko*}.ko
                if grep -qx "$name" "$root/modules/order"; then continue; fi
                case $file in
                *.xz) xz -dc "$file" >"$root/modules/$name" ;;
                *.gz) gzip -dc "$file" >"$root/modules/$name" ;;
                *.zst) zstd -dc -q "$file" >"$root/modules/$name" ;;
                *) cp "$file" "$root/modules/$name" ;;
                esac
                echo "$name" >>"$root/modules/order"
            done
    done
}

put_jobs() { # ROOT
    local job
    mkdir -p "$1/jobs/examples"
    cp "$here"/jobs/*.sh "$here"/jobs/*.py "$1/jobs/"
    cp examples/hosts/* "$1/jobs/examples/"
    for job in messages requests service faults rounds command events half reader; do
        gcc -std=c11 -D_DEFAULT_SOURCE -O2 -Wall -Wextra -Wpedantic -Wconversion -Wshadow -Werror -o "$1/jobs/$job" \
            "$here/jobs/$job.c" "$here"/jobs/{device,raw}.c ||
            stop "$here/jobs/$job.c does not build: the compiler says why above"
    done
}

build_guest() {
    local root=$out/root applet
    rm -rf "$root"
    mkdir -p "$root"/{busybox,proc,sys,dev,usr,out,tmp,run,etc,root,var}
    cp "$(command -v busybox)" "$root/busybox/busybox"
    for applet in $(busybox --list | grep -vx busybox); do ln -sf busybox "$root/busybox/$applet"; done
    for applet in bin sbin lib lib64; do if [ -e "/usr/$applet" ]; then ln -s "usr/$applet" "$root/$applet"; fi; done
    ln -s ../run "$root/var/run"
    echo 'root:x:0:0:root:/root:/busybox/sh' >"$root/etc/passwd"
    echo 'root:x:0:' >"$root/etc/group"
    echo '127.0.0.1 localhost' >"$root/etc/hosts"
    cp /etc/ld.so.cache "$root/etc/"
    put_modules "$root" virtio_pci virtio_net 9pnet_virtio 9p vhci-hcd usbtmc
    put_jobs "$root"
    cp "$here/guest/init" "$root/init"
    chmod +x "$root/init"
    (cd "$root" && find . | cpio -o -H newc --quiet | gzip -1) >"$out/guest.gz"
}

# No acceleration, so that it runs anywhere. The first program of the guest finds what it is to do in FOLDER/plan.
guest_command() { # FOLDER
    guest_words=("${machine[@]}" -accel "tcg,thread=multi" -smp 1 -m 768 -nodefaults -display none -serial stdio -no-reboot
        -kernel "$(echo "$out"/kernel/boot/vmlinuz-*)" -initrd "$out/guest.gz" -append "console=$terminal quiet loglevel=1 panic=-1"
        -netdev "user,id=net" -device "virtio-net-pci,netdev=net,romfile="
        -fsdev "local,id=usr,path=/usr,security_model=none,readonly=on" -device "virtio-9p-pci,fsdev=usr,mount_tag=usr"
        -fsdev "local,id=out,path=$1,security_model=none" -device "virtio-9p-pci,fsdev=out,mount_tag=out")
}
