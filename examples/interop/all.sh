#!/bin/sh
# all.sh RCPD: starts the daemon RCPD and the five speakers of this directory, shows their tables before and after a change of link state, stops the speakers,
# and shows the daemon's report. As root, from the top of the repository; it wants Debian's packages bird2, frr, gobgpd, openbgpd and exabgp.
set -u
here=examples/interop
work=$(mktemp -d)
mkdir -p /run/openbgpd
trap 'kill $speakers 2>/dev/null; wait; rm -r "$work"' EXIT

"$1" --bgp 127.0.0.1:1790 --ls 127.0.0.1:1791 --sessions 5 < $here/roster.txt > "$work/report" &
daemon=$!
sleep 1
bird -f -c $here/bird/bird.conf -s "$work/bird" > "$work/bird.log" 2>&1 &
speakers=$!
/usr/lib/frr/bgpd -f "$PWD/$here/frr/bgpd.conf" -p 0 -n -Z -S -i "$work/pid" --vty_socket "$work" > "$work/frr.log" 2>&1 &
speakers="$speakers $!"
gobgpd -f $here/gobgp/gobgpd.toml --api-hosts 127.0.0.1:50051 > "$work/gobgp.log" 2>&1 &
speakers="$speakers $!"
/usr/sbin/bgpd -d -f $here/openbgpd/bgpd.conf > "$work/openbgpd.log" 2>&1 &
speakers="$speakers $!"
env exabgp.tcp.port=1790 exabgp.cli=false exabgp.log.routes=true exabgp.log.level=DEBUG \
    exabgp $here/exabgp/exabgp.conf > "$work/exabgp.log" 2>&1 &
speakers="$speakers $!"
sleep 3
gobgp global rib add 192.0.2.128/26 nexthop 10.0.0.3 origin igp
gobgp global rib add 198.51.100.0/24 nexthop 10.0.0.3 origin igp
sleep 10

echo "== BIRD"; birdc -s "$work/bird" show route
echo "== FRRouting"; vtysh --vty_socket "$work" -c 'show bgp ipv4 unicast' | grep '^\*'
echo "== GoBGP"; gobgp global rib
echo "== OpenBGPD"; bgpctl -s /tmp/openbgpd.sock show rib | grep '/'
echo "== ExaBGP"; grep 'announced NLRI' "$work/exabgp.log"
python3 $here/ospf.py 127.0.0.1:1791 10.0.0.2-10.0.0.3=5
sleep 1
echo "== FRRouting, once it is nearer to GoBGP"; vtysh --vty_socket "$work" -c 'show bgp ipv4 unicast' | grep '^\*'

kill $speakers
wait $daemon
echo "== the report"; cat "$work/report"
