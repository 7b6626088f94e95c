"""What checks/long/walk gives to the scripts of docs/walk.html, and what has to come of it by the program."""
import json
import os
import pathlib
import re
import subprocess

ROOT = pathlib.Path(__file__).resolve().parent.parent.parent
PROGRAM = pathlib.Path(os.environ.get("RENAMER", ROOT / "renamer")).resolve()
NETWORKS = ("bitonic", "periodic", "tree")
WIDTHS = tuple(2**level for level in range(1, 9))
DRAWN = WIDTHS[:5]
SCHEDULES, CARRIED, TEXTS = 200, 20, 400
# What is put into texts, so that some are no schedules, and others are in an unusual form.
CHANGES = ('"', '""', ",", "\n", "\r", "\r\n", "\n\n", " ", "0", "+", "x", str(2**64 - 1), "\ufeff", "turn", "é")
ODD_TEXTS = (
    "", "\n", "op,client,wire", "op,client,wire\n", "\ufeffop,client,wire\nturn,,\n", "op,client,wire,\n",
    " op,client,wire\n", "op,client,wire\nturn,,",
    '"op",client,"wire"\n"enter",1,"0"\n', '"op,client,wire"\n', "op,client,wire\n\n\nenter,1,0\n\nstep,1,\n\n",
    "op,client,wire\renter,1,0\r", "op,client,wire\r\nenter,1,0\r\n", "op,client,wire\nenter,1,0\n ",
    'op,client,wire\nenter,"00"7,01\nstep,"7","', 'op,client,wire\nstep,7,"0\nstep,7,\n', "op,client,wire\nstep,7\n",
    "op,client,wire\nenter,1,9007199254740993\n", "op,client,wire\nenter,1,18446744073709551615\n",
    "op,client,wire\nenter,1,18446744073709551616\n", "op,client,wire\nenter,18446744073709551616,0\n",
    "op,client,wire\nenter,000000000000000000007,0\n", "op,client,wire\nstep,00000000000000000007,\n",
    "op,client,wire\nturn,1,\n", "op,client,wire\nturn,,1\n", "op,client,wire\nstep,1,0\n",
    "op,client,wire\nleave,1,0\n", "op,client,wire\nEnter,1,0\n",
    'op,client,wire\n"en""ter",1,0\n', "op,client,wire\n,,\n", 'op,client,wire\n"',
)


def printed(job, network, width, *words, text=""):
    """What the program prints."""
    command = [PROGRAM, job, "--network", network, "--width", str(width), *words]
    return subprocess.run(command, input=text, stdout=subprocess.PIPE, text=True, check=True).stdout


def replayed(text):
    """What the program prints of a schedule on bitonic 4, or the record and the cause for which it is refused."""
    command = [PROGRAM, "replay", "--network", "bitonic", "--width", "4"]
    done = subprocess.run(command, input=text.encode(), capture_output=True)
    return done.stdout.decode() if done.returncode == 0 else done.stderr.decode().strip().removeprefix("renamer: ")


# ---- what is given

def identities(chance, count):
    """Different identities, small and great ones."""
    return [str(it) for it in chance.sample(range(1000), count - 1)] + [str(2**64 - 1 - chance.randrange(1000))]


def schedule(chance, width):
    """The records of a random schedule: most clients walk, and some records are refused."""
    clients = identities(chance, chance.randrange(2, 25))
    records = []
    for _ in range(chance.randrange(10, 300)):
        client = chance.choice(clients)
        entry = chance.randrange(width) if chance.random() < 0.95 else chance.randrange(2000)
        records += chance.choices([f"enter,{client},{entry}", f"step,{client},", "turn,,"], [20, 78, 2])
    return records


def carried(chance, network, width):
    """A schedule of three epochs whose clients walk one after another, and what `renamer run --carry` makes of them."""
    entries = 1 if network == "tree" else width
    records, batch = [], ["epoch,client,entry"]
    for epoch in range(3):
        for client in identities(chance, chance.randrange(2, 12)):
            entry = chance.randrange(entries)
            batch.append(f"{epoch},{client},{entry}")
            records += [f"enter,{client},{entry}", *(f"step,{client}," for _ in range(width.bit_length() ** 2))]
        records.append("turn,,")
    report = printed("run", network, width, "--carry", text="".join(f"{line}\n" for line in batch))
    return records, re.sub(r"(?m)^epoch (\d+) clients", r"turn epoch \1 clients", report)


def changed_text(chance):
    """The text of a short schedule, with a few places changed."""
    records = chance.choices(["enter,1,0", "enter,2,3", "step,1,", "step,2,", "turn,,"], k=chance.randrange(4))
    text = "".join(f"{line}\n" for line in ["op,client,wire", *records])
    for _ in range(chance.randrange(4)):
        at = chance.randrange(len(text) + 1)
        text = text[:at] + chance.choice(CHANGES) + text[at + chance.randrange(2) :]
    return text


class Cases:
    """What is given to the page's scripts, and what has to come of it."""

    def __init__(self, chance):
        self.wirings = [(network, width) for network in NETWORKS for width in WIDTHS]
        self.texts = [*ODD_TEXTS, *(changed_text(chance) for _ in range(TEXTS - len(ODD_TEXTS)))]
        self.schedules, self.answers = [], []
        for at in range(SCHEDULES + CARRIED):
            network, width, carries = chance.choice(NETWORKS), chance.choice(DRAWN), at >= SCHEDULES
            records, answer = carried(chance, network, width) if carries else (schedule(chance, width), None)
            if not carries:
                text = "".join(f"{line}\n" for line in ["op,client,wire", *records])
                answer = printed("replay", network, width, text=text)
            self.schedules.append({"kind": network, "width": width, "carries": carries, "schedule": records})
            self.answers.append(answer)

    def given(self):
        return json.dumps({"wirings": self.wirings, "schedules": self.schedules, "texts": self.texts})

    def by_hand(self):
        """A schedule on bitonic 8 that is written into the page, and its answers."""
        at = next(at for at, it in enumerate(self.schedules)
                  if not it["carries"] and it["kind"] == "bitonic" and it["width"] == 8)
        return self.schedules[at]["schedule"], self.answers[at]

    def wrong(self, found):
        """Each thing that was found and not expected."""
        for (network, width), lines in zip(self.wirings, found["wirings"], strict=True):
            if lines != printed("show", network, width):
                yield f"the wiring of {network} {width}"
        for case, wanted, answer in zip(self.schedules, self.answers, found["answers"], strict=True):
            kept = records_of_turns(answer) if case["carries"] else answer
            if kept != (records_of_turns(wanted) if case["carries"] else wanted):
                yield f"{case}: {answer}"
        for text, answer in zip(self.texts, found["texts"], strict=True):
            wanted = replayed(text)
            is_same = answer.startswith(f"{wanted}: ") if wanted.startswith("record ") else answer == wanted
            if not is_same:
                yield f"the text {text!r}: {answer!r}, and not {wanted!r}"
        if found["pages"][0] != found["pages"][1]:
            yield f"memory grows: {found['pages']} pages"
        yield from found["wrong"]


def records_of_turns(text):
    """The records of epochs in a replay or in a report."""
    return re.findall(r"(?m)^(?:turn epoch|exit|name) .*$", text)
