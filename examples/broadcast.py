"""A script: `python3 examples/broadcast.py | bin/linkrun`. Peer 0 sends 100000 bytes to each of 7 others."""
peers = range(8)
for peer in peers:
    print("limit", 0, peer, 1000000, 1000000)  # NOW PEER EGRESS INGRESS
for recipient in peers[1:]:
    print("enqueue", 0, 0, recipient, 7, 100000, 20000000, 1)  # NOW ORIGIN RECIPIENT CHANNEL LENGTH LATENCY D
print("next")
for moment in range(100000000, 1000000000, 300000000):
    print("advance", moment)  # NOW
print("next")
