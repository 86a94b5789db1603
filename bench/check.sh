#!/usr/bin/env bash
# How long `check` takes to judge a report of 100,000 ops (64 clients, 16 images, reads to their limit), and its memory:
# wanted in under ten seconds on one core and in at most eight times the text. Then a dynamic report of that size, 10,000 rounds
# of 81 rows with orders and their hops: wanted in at most three times the time of the first, and in at most eight times its
# own text. Then reports that are made to be slow, each wanted in under thirty: all requests to one owner, a thread that ran a
# million tokens which nobody started, all ops on one block, a GIVEN at the end of its range, a thread whose AT are all equal,
# and writes of 131,072 bytes over and over.
set -euo pipefail
top=$(cd "$(dirname "$0")/.." && pwd)
work=$(mktemp -d)
trap 'rm -rf "$work"' EXIT
"$top/bin/lightrun" run <"$top/examples/first.json" >"$work/first"

cat >"$work/report.py" <<'REPORT'
import random, sys

# Clients one after another, each with its own image: a get, requests in batches of eight, a put.
def report(clients, images, ops, op, given=None, at=None, block=512, blocks=2048, made_up=0):
    head = ['lightrun report 1', 'scheduler static', 'reactors 1', 'period 1000000', 'pool 1 1', f'images {images}']
    head += [f'image i{d} {block} {blocks}' for d in range(images)] + [f'clients {clients}']
    owners = [[] for _ in range(images)]
    writes = [0] * images
    stored = [bytearray(block * blocks) for _ in range(images)]
    told, channels = [], [0] * images
    for c in range(clients):
        d = c % images
        count = ops // clients
        owner = 1 + clients + d
        script, ran, did, replies = [f'op get {d}'], [], [f'did 0 0 given {channels[d]}'], []
        channels[d] += 1
        sent = 0
        for k in range(1, count - 1):
            words, start, length, pattern = op(c, k, d)
            script.append('op ' + words)
            owners[d].append(f'ran {1 + c} {k - 1} request {k}')
            did.append(f'did {at if at is not None else (k - 1) // 8 * 8} {k} sent')
            ran.append(f'ran {owner} {k - 1} reply {k}')
            if pattern:
                body = (pattern * (length * block // len(pattern) + 1))[:length * block]
                stored[d][start * block:(start + length) * block] = body
                writes[d] += 1
                replies.append(f'reply {k} ok')
            elif length:
                replies.append(f'reply {k} bytes ' + stored[d][start * block:(start + length) * block].hex())
            else:
                replies.append(f'reply {k} writes {writes[d]}')
            sent += 1
        script.append(f'op put {d}')
        did += [f'did {at if at is not None else sent} {count - 1} deferred', f'did {at if at is not None else sent} {count} closed']
        ran.append(f'ran {1 + c} 0 putself {d}')
        head += [f'client c{c} 8 {count}'] + script
        told += [f'thread {1 + c} client 0'] + ran + did + replies
    lines = head + ['thread 0 app 0'] + [f'ran {1 + c} 0 done' for c in range(clients)]
    lines += [f'ran 99 {i} visit {i} 0 0' for i in range(made_up)]
    lines += [f'did {clients} {d} began {channels[d]}' for d in range(images)] + [f'called {clients} {d}' for d in range(images)]
    lines += told
    for d in range(images):
        lines += [f'thread {1 + clients + d} owner 0'] + owners[d] + ['ran 0 0 stop']
    lines += [f'device {d} {given if given is not None else channels[d]} 0 1' for d in range(images)]
    return '\n'.join(lines + ['home 1 1', 'end', ''])

# A write, a read and a flush in turn; the reads of 64 clients are 16 MiB together.
def mixed(c, k, d):
    start = (k * 7 + c * 31) % 2000
    if k % 3 == 0:
        return f'write {d} {start} 1 {k % 65536:04x}', start, 1, bytes.fromhex(f'{k % 65536:04x}')
    if k % 3 == 1 and k // 3 < 512:
        return f'read {d} {start} 1', start, 1, b''
    return f'flush {d}', 0, 0, b''

def one_block(c, k, d):
    if k % 2:
        return f'write {d} 5 1 {k % 256:02x}', 5, 1, bytes([k % 256])
    return f'flush {d}', 0, 0, b''

def great(c, k, d):
    return f'write {d} 0 8192 {k % 256:02x}', 0, 8192, bytes([k % 256])

# The orders of a round, as (thread, reactor).
def plan(rows, reactors):
    core, planned, orders = [0] * reactors, [0] * reactors, []
    loads = [busy * 100 // (busy + idle) for _, _, busy, idle in rows]
    for (_, reactor, _, _), load in zip(rows, loads):
        core[reactor] += load
    others = [*range(1, reactors), 0]
    for (thread, reactor, _, _), load in zip(rows, loads):
        if load < 20:
            to = 0
        elif reactor and core[reactor] <= 95:
            to = reactor
        else:
            to = next((d for d in others if planned[d] + load <= 80), None)
            if to is None:
                to = min(others, key=planned.__getitem__)
        planned[to] += load
        if to != reactor:
            orders.append((thread, to))
    return orders

# All threads of the largest script stand in a list for all rounds, each half of the time with little to do, and each goes
# where it was ordered before the next round. The clients only wait.
def dynamic(rounds, period=10 ** 12, reactors=16, clients=64, images=16, waits=1000):
    drawn = random.Random(1)
    threads = 1 + clients + images
    places, hops, told = [t % reactors for t in range(threads)], [[] for _ in range(threads)], []
    for n in range(1, rounds + 1):
        rows = []
        for t in range(threads):
            busy = drawn.randrange(period // 10) if drawn.random() < 0.5 else drawn.randrange(period // 4, period // 2)
            rows.append((t, places[t], busy, period - busy))
        told += [f'round {n} {n * period}'] + [f'row {t} {c} {busy} {idle}' for t, c, busy, idle in rows]
        for t, c in plan(rows, reactors):
            told.append(f'order {t} {c}')
            hops[t].append(f'hop {n} {c}')
            places[t] = c
    lines = ['lightrun report 1', 'scheduler dynamic', f'reactors {reactors}', f'period {period}', 'pool 1 1', f'images {images}']
    lines += [f'image i{d} 512 1' for d in range(images)] + [f'clients {clients}']
    for c in range(clients):
        lines += [f'client c{c} 1 {waits}'] + ['op wait 1000000'] * waits
    lines += ['thread 0 app 0'] + hops[0] + [f'ran {1 + c} 0 done' for c in range(clients)]
    lines += [f'did {clients} {d} began 0' for d in range(images)] + [f'called {clients} {d}' for d in range(images)]
    for t in range(1, 1 + clients):
        lines += [f'thread {t} client {t % reactors}'] + hops[t]
        lines += [f'did 0 {k} waited' for k in range(waits)] + [f'did 0 {waits} closed']
    for t in range(1 + clients, threads):
        lines += [f'thread {t} owner {t % reactors}'] + hops[t] + ['ran 0 0 stop']
    lines += [f'device {d} 0 0 1' for d in range(images)] + [f'clock 0 {rounds * period}'] + told
    return '\n'.join(lines + ['home 1 1', 'end', ''])

kind, ops = sys.argv[1], int(sys.argv[2])
if kind == 'lawful':
    text = report(64, 16, ops, mixed)
elif kind == 'dynamic':
    text = dynamic(ops // 10)
elif kind == 'one-owner':
    text = report(1, 1, ops, lambda c, k, d: (f'flush {d}', 0, 0, b''))
elif kind == 'made-up':
    text = report(64, 16, 1000, mixed, made_up=14 * ops)
elif kind == 'one-block':
    text = report(64, 1, ops, one_block)
elif kind == 'given':
    text = report(64, 16, ops, mixed, given=2 ** 64 - 1)
elif kind == 'one-at':
    text = report(1, 1, ops, lambda c, k, d: (f'flush {d}', 0, 0, b''), at=0)
elif kind == 'great-writes':
    text = report(1, 1, ops, great, block=16, blocks=8192)
sys.stdout.write(text)
REPORT

cat >"$work/measure.py" <<'MEASURE'
import os, resource, subprocess, sys, time
program, report, kind, base = sys.argv[1:]
best = None
for _ in range(3):
    with open(report, 'rb') as text:
        begin = time.time()
        ended = subprocess.run([program, 'check'], stdin=text, capture_output=True)
        taken = time.time() - begin
    best = taken if best is None else min(best, taken)
said = (ended.stdout or ended.stderr).decode().strip()
size = os.path.getsize(report)
most = resource.getrusage(resource.RUSAGE_CHILDREN).ru_maxrss * 1024
ratio = '' if base == '0' else f', {best / float(base):.2f} times the first'
print(f'{kind}: {size} bytes: {best:.2f} s{ratio}, {most / size:.2f} times the text in memory: {said}')
with open(os.path.join(os.path.dirname(report), 'taken'), 'w') as taken:
    taken.write(str(best))
MEASURE

base=0
for kind in half lawful dynamic one-owner made-up one-block given one-at great-writes; do
    ops=100000
    name=$kind
    if [ "$kind" = half ]; then ops=50000 name=lawful; fi
    python3 "$work/report.py" "$name" "$ops" >"$work/report"
    taskset -c 0 python3 "$work/measure.py" "$top/crates/lightrun/out/lightrun" "$work/report" "$kind" "$base"
    if [ "$kind" = lawful ]; then base=$(cat "$work/taken"); fi
done
