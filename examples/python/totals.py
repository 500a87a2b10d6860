"""Adds up the amounts of each name in a feed, and prints the table, names rising: `totals.py orders.csv`."""

import sys

import fkv

with fkv.Store(fkv.SUM, memory="64M") as store:
    with open(sys.argv[1], encoding="utf-8") as feed:
        for row in feed:
            name, amount = row.rsplit(",", 1)
            store.rmw(name, int(amount))
    for name, total in store.items():
        print(f"{name},{total}")
