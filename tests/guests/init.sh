#!/bin/busybox sh
# The first process of a guest: mounts what a Linux has and the host's folder, and then carries out commands, each a line of the port
# `cmd`. What a command writes is in the host's folder as `told`, and its status is the answer.
export PATH=/bin HOME=/
/bin/busybox mkdir -p /proc /sys /dev /tmp /host
/bin/busybox mount -t proc proc /proc
/bin/busybox mount -t sysfs sys /sys
/bin/busybox mount -t devtmpfs dev /dev
/bin/busybox --install -s /bin
mkdir -p /dev/shm /dev/pts
mount -t tmpfs shm /dev/shm
mount -t devpts pts /dev/pts
mount -t tmpfs tmp /tmp
while read -r module; do insmod "/modules/$module"; done </modules/list
ip link set lo up
mount -t 9p -o trans=virtio,version=9p2000.L,msize=262144,cache=none host /host || echo NO HOST
for _ in 1 2 3 4 5 6 7 8 9 10; do
    for place in /sys/class/virtio-ports/*; do
        [ "$(cat "$place/name" 2>/dev/null)" = cmd ] && port=/dev/${place##*/}
    done
    [ -n "$port" ] && break
    sleep 1
done
echo "READY $port"
exec 3<>"$port"
while true; do
    if read -r line <&3; then
        sh -c "$line" >/host/telling 2>&1 </dev/null
        status=$?
        mv /host/telling /host/told
        echo "done $status" >&3
    else
        sleep 1
    fi
done
