#!/usr/bin/python3
# Drives propbench by the Python package, which lies in python/src and comes with the Debian
# package.
from propbench import Refused, Session

with Session() as session:
    session.send_all(["cell x span", "cell y span", "cell z span", "attach sum x y z"])
    session.send("tell morning x 3..5")
    session.send("tell evening y 10")
    print(session.send("settle", seconds=10))
    print(session.send("why z"))
    print(session.send("worldview"))
    try:
        session.send("ask w")
    except Refused as refused:
        print(refused.reply)
