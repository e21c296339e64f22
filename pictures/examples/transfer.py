"""Three threads move money between accounts, of which two want the same ones. Its record is transfer.jsonl.

    PYTHONPATH=bindings/out/python python3 pictures/examples/transfer.py > pictures/examples/transfer.jsonl
"""
import os
import sys
import threading

sys.dont_write_bytecode = True
TOP = os.path.dirname(os.path.dirname(os.path.dirname(os.path.abspath(__file__))))
sys.path[:0] = [f"{TOP}/pictures", f"{TOP}/conformance"]
import changecap  # noqa: E402
from record import Recorder  # noqa: E402

recorder = Recorder(changecap.Server(), sys.stdout)
began, first, second, third = threading.Barrier(3), threading.Event(), threading.Event(), threading.Event()


def moved(transaction, source, to, amount):
    for account, more in (source, -amount), (to, amount):
        balance = transaction.get("accounts", (account,)).values[1]
        transaction.update("accounts", (account,), {1: balance + more})


def ann_to_bob():
    transaction = recorder.transaction(0)
    began.wait()
    moved(transaction, "ann", "bob", 30)
    transaction.commit()
    first.set()
    third.wait()
    transaction = recorder.transaction(0)
    transaction.delete("accounts", ("dan",))
    transaction.commit()


def bob_to_ann():
    transaction = recorder.transaction(1)
    began.wait()
    moved(transaction, "bob", "ann", 10)
    second.wait()
    while not transaction.commit():
        transaction = recorder.transaction(1)
        moved(transaction, "bob", "ann", 10)
    third.set()


def cid_to_dan():
    transaction = recorder.transaction(2)
    began.wait()
    balance = transaction.get("accounts", ("cid",)).values[1]
    transaction.update("accounts", ("cid",), {1: balance - 20})
    transaction.insert("accounts", ("dan", 20))
    first.wait()
    transaction.commit()
    recorder.call("restart 1", 2)
    second.set()


recorder.call("create accounts kv")
recorder.call("commit insert accounts ('ann',100) ; insert accounts ('bob',100) ; insert accounts ('cid',100)")
recorder.call("session")
recorder.call("attach 1 accounts")
threads = [threading.Thread(target=work) for work in (ann_to_bob, bob_to_ann, cid_to_dan)]
for thread in threads:
    thread.start()
for thread in threads:
    thread.join()
recorder.call("changeset 1")
