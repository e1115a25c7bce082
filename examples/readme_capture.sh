./dapcap --try examples/wire.pcap | grep '^  .* ; ' | tail -n 3
