#!/usr/bin/env python3
"""The processor time that clients take who share a bucket of the program's tables, beside random clients.

65,536 clients share a bucket of the job's table under one fixed state of random words: `run` of 16 epochs of them, `replay`
of five epochs in which they enter and walk out, ten runs each. The program draws
fresh words in each run, so nobody can choose such clients beforehand. The last rows show what the clients would cost if the
state were that one: the same runs, once each, with random words that are all zero.
"""
import measure

EPOCHS, TURNS = 16, 5


def commands(clients):
    for _ in range(TURNS):
        yield from (f"enter,{client},0" for client in clients)
        for client in clients:
            yield f"step,{client},"
            yield f"step,{client},"
        yield "turn,,"


def inputs(bench, kind, clients):
    batch = (f"{epoch},{client},0" for epoch in range(EPOCHS) for client in clients)
    return {
        "run": bench.write(f"{kind}-batch", "epoch,client,entry", batch),
        "replay": bench.write(f"{kind}-schedule", "op,client,wire", commands(clients)),
    }


def rows(bench):
    keys = bench.compiled(["rustc", "-O"], "enemies/keys.rs", "keys")
    zeros = bench.compiled(["gcc", "-shared", "-fPIC", "-O1"], "enemies/zeros.c", "zeros.so")
    count = bench.size(65_536, 4_096)

    def sharing(hasher):
        return inputs(bench, hasher, [int(client) for client in bench.written([keys, hasher, str(count)]).split()])

    theirs = {**sharing("sip"), "run": sharing("scatter")["run"]}
    others = inputs(bench, "others", [bench.chance.randrange(10**19, 2**64) for _ in range(count)])
    tree = ["--network", "tree", "--width", "2"]
    jobs = {"run": ["run", *tree], "replay": ["replay", *tree]}
    pairs = {job: [([bench.proved, *words], paths[job]) for paths in (theirs, others)] for job, words in jobs.items()}
    for job, pair in pairs.items():
        yield bench.compare(job, pair, bench.size(10, 3))
    for job, pair in pairs.items():
        spent = [[bench.run(*one, LD_PRELOAD=zeros)] for one in pair]
        yield measure.ratio(f"{job}, with that state", spent)


if __name__ == "__main__":
    measure.main(__doc__, rows)
