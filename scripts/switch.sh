# Sourced by the scripts that capture real traffic: machines on one switch, each a network namespace of Linux with the addresses of a VM of a scenario. It
# needs root, iproute2 and tcpdump; the machines go when the script ends. What is captured differs from run to run in ports, times and sequence numbers.
tag=andromeda$$
switch=$tag-switch
names=()

# at MACHINE COMMAND..: runs the command on that machine.
at() { ip netns exec "$tag-$1" "${@:2}"; }

take_down() {
  for name in switch "${names[@]}"; do ip netns del "$tag-$name" 2>/dev/null || true; done
}

# machines ETHERNET ADDRESS NAME..: the first one has the Ethernet address ETHERNET:01 and the IPv4 address ADDRESS.10, the second :02 and .20, and so on.
# None hands its network card more than one segment at a time, so that frames are as on a wire.
machines() {
  local ethernet=$1 address=$2 i=0 name
  names=("${@:3}")
  trap take_down EXIT
  ip netns add "$switch"
  ip -n "$switch" link add bridge type bridge
  ip -n "$switch" link set bridge up
  for name in "${names[@]}"; do
    i=$((i + 1))
    ip netns add "$tag-$name"
    ip -n "$switch" link add "port$i" type veth peer name eth0 netns "$tag-$name"
    ip -n "$switch" link set "port$i" master bridge up
    at "$name" sysctl -q -w net.ipv6.conf.all.disable_ipv6=1 || true
    ip -n "$tag-$name" link set eth0 address "$ethernet:0$i" gso_max_segs 1 up
    ip -n "$tag-$name" addr add "$address.$((10 * i))/24" dev eth0
  done
  sleep 2
}

# capture FILE: begins to write what the switch passes on.
capture() {
  ip netns exec "$switch" tcpdump -q -i bridge --immediate-mode -U -w "$1" 'arp or ip' 2>/dev/null &
  captured=$!
  sleep 1
}

# captured: ends that.
captured() {
  sleep 1
  kill "$captured"
  wait "$captured" 2>/dev/null || true
}
