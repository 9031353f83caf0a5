"""Asks `bin/linkrun` line by line: one of 8 peers sends to all others, and the clock goes from event to event."""
import subprocess

linkrun = subprocess.Popen(["bin/linkrun"], stdin=subprocess.PIPE, stdout=subprocess.PIPE, text=True, bufsize=1)


def ask(command):
    """The words of what a command answers, and the moment of the next event, which `next` answers last."""
    linkrun.stdin.write(f"{command}\nnext\n")
    done = []
    while (words := linkrun.stdout.readline().split())[0] != "next":
        done.append(words)
    return done, words[1]


for peer in range(8):
    ask(f"limit 0 {peer} 1000000 1000000")
for peer in range(1, 8):
    done, event = ask(f"enqueue 0 0 {peer} 0 {peer * 50000} 20000000 1")
while event != "-":
    done, after = ask(f"advance {event}")
    for _, origin, recipient, _, length, arrival in done:
        print(f"at {event}: {length} bytes from {origin} to {recipient} are sent, and arrive at {arrival}")
    event = after
