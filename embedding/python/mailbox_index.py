#!/usr/bin/env python3
"""An index of a mailbox by sender: mailbox_index.py MBOX INDEX [FROM [BELOW]]

Adds each message of MBOX that INDEX hasn't got, a sender's address with the message's number, commits every hundred, and lists the
senders from FROM on and below BELOW. It may be killed at any moment: what it has committed is there when it is run again.

    python3 mailbox_index.py --demo      # makes a mailbox of 2,000 messages, kills itself while it indexes, and lists again
"""
import email.utils
import mailbox
import os
import pathlib
import signal
import subprocess
import sys
import tempfile
import time

sys.path.insert(0, str(pathlib.Path(__file__).parent))
try:
    import nardsill
except ImportError as error:
    sys.exit(str(error))


def add_all(index, box):
    """Adds what isn't there; answers how many."""
    added = 0
    for number, message in enumerate(box):
        sender = email.utils.parseaddr(message.get("From", ""))[1].lower().encode()[:64]
        if index.add(sender, (number, 1)):
            added += 1
            if added % 100 == 0:
                index.commit()
    index.commit()
    return added


def main(path, index_path, start=None, stop=None):
    with nardsill.open(index_path) as index:
        print(add_all(index, mailbox.mbox(path)), "added")
        for sender, row in index.scan(start and start.encode(), stop and stop.encode()):
            print(sender.decode(errors="replace"), "message", row.block)


def demo():
    with tempfile.TemporaryDirectory() as room:
        path, index_path = os.path.join(room, "mail.mbox"), os.path.join(room, "mail.idx")
        with open(path, "w") as out:
            for number in range(2000):
                sender = f"{('alice', 'bob', 'carol', 'dave')[number % 4]}{number % 50}@example.org"
                out.write(f"From {sender} Thu Jan  1 00:00:00 2026\nFrom: {sender}\nSubject: {number}\n\nHello.\n\n")
        words = [sys.executable, __file__, path, index_path]
        child = subprocess.Popen(words, stdout=subprocess.DEVNULL)
        while not os.path.exists(index_path):
            time.sleep(0.01)
        time.sleep(0.1)
        child.send_signal(signal.SIGKILL)
        child.wait()
        with nardsill.open(index_path) as index:
            print("behind the kill:", sum(1 for _ in index), "entries")
        subprocess.run(words + ["bob1", "bob2"], check=True)
        with nardsill.open(index_path) as index:
            assert sum(1 for _ in index) == 2000


if __name__ == "__main__":
    if sys.argv[1:] == ["--demo"]:
        demo()
    elif 3 <= len(sys.argv) <= 5:
        main(*sys.argv[1:])
    else:
        sys.exit(__doc__)
