# Sourced by tests/guest/run. The guest: Debian's kernel for arm64 and a few programs, from packages, as an initramfs.
# An arm64 guest, since its emulation keeps the order that the guest asks for with its barriers on both kinds of host.
# After need_guest: $kernel and $initramfs are files below $work.

guest_programs=(busybox-static coreutils e2fsprogs libext2fs2 libcom-err2 libblkid1 libuuid1 libc6)
guest_modules=(virtio_pci virtio_blk ext4)

need_tools() {
    there qemu-system-aarch64 || install qemu-system-arm
    there cpio || install cpio
    there modprobe && there depmod || [ -x /sbin/modprobe ] || install kmod
}

# The packages, unpacked below $work/packages
need_packages() {
    [ -e "$work/packages/all" ] && return
    rm -rf "$work/packages" && mkdir -p "$work/packages/root"
    dpkg --print-architecture | grep -qx arm64 || dpkg --add-architecture arm64
    apt-get update -qq >&2
    local image
    image=$(apt-cache depends linux-image-arm64:arm64 | awk '$1 == "Depends:" && $2 ~ /^linux-image-/ && !n++ { print $2 }')
    (
        cd "$work/packages"
        apt-get download -qq "${image%:arm64}:arm64" "${guest_programs[@]/%/:arm64}" 2>/dev/null
        for one in *.deb; do dpkg -x "$one" root; done
        touch all
    )
}

copy_modules() {
    local release=$1 from=$work/packages/root module
    PATH=$PATH:/sbin:/usr/sbin
    depmod -b "$from" "$release"
    for module in "${guest_modules[@]}"; do
        modprobe -d "$from" -S "$release" --show-depends "$module" | awk '$1 == "insmod" { print $2 }'
    done | awk '!seen[$0]++' | while read -r file; do
        cp "$file" "$work/root/modules/"
        echo "${file##*/}" >>"$work/root/modules/order"
    done
}

copy_programs() {
    local from=$work/packages/root library
    cp "$from/bin/busybox" "$work/root/bin/"
    cp "$from/bin/dd" "$from/sbin/mke2fs" "$from/sbin/e2fsck" "$work/root/sbin/" # called by their paths: the shell prefers busybox's own
    ln -s busybox "$work/root/bin/sh"
    for library in libext2fs.so.2 libe2p.so.2 libcom_err.so.2 libblkid.so.1 libuuid.so.1 libc.so.6 ld-linux-aarch64.so.1; do
        cp -L "$(find "$from/lib" "$from/usr/lib" -name "$library" | head -n 1)" "$work/root/lib/"
    done
}

need_guest() {
    local release
    need_tools
    need_packages
    kernel=$(echo "$work"/packages/root/boot/vmlinuz-*) initramfs=$work/initramfs
    release=${kernel##*/vmlinuz-}
    rm -rf "$work/root" && mkdir -p "$work/root"/{bin,sbin,lib,modules,proc,sys,dev,tmp,mnt}
    copy_programs
    copy_modules "$release"
    cp tests/guest/init "$work/root/init"
    (cd "$work/root" && find . | cpio -o -H newc --quiet) >"$initramfs"
}
