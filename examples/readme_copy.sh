./daplive --try --help >/dev/null; export DAPLIVE=crates/daplive/out/try/daplive folder=$(mktemp -d)
there="--udp 4712:127.0.0.1:4711 --node 1.2" here="--udp 4711:127.0.0.1:4712 --node 1.1"
python3 bridge/bridge.py serve $there --folder $folder --stop-after 2 &
echo 'hello from 1.1' | python3 bridge/bridge.py copy - 1.2::HELLO.TXT $here
python3 bridge/bridge.py type 1.2::HELLO.TXT $here
wait && ls $folder
