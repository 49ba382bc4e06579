#!/usr/bin/python3
"""A tournament: six teams, each against each in five rounds, in whose hall, and who wishes what."""
from itertools import combinations

from propbench import Workbench, all_different, count, implies

w = Workbench()
teams = "Ants Bees Cats Dogs Elks Foxes".split()
games = {f"{one}-{other}": (one, other) for one, other in combinations(teams, 2)}
round_of = {game: w.number(game, 1, 5) for game in games}

# A team plays once in a round.
for team in teams:
    w.require(all_different(round_of[game] for game in games if team in games[game]))
w.require(round_of["Ants-Bees"] == 5, under="the derby is last")
w.require(round_of["Cats-Dogs"] == 5, under="the favourites meet last")
w.require(round_of["Elks-Foxes"] == 4, under="television shows Elks-Foxes in round 4")
w.require(round_of["Ants-Cats"] < round_of["Ants-Dogs"], under="Ants meet Cats before Dogs")
w.picture().save("tournament.svg")
print(w.conflicts())
print(w.repairs(weight={"the derby is last": 3}))
w.kick("the favourites meet last")

# In whose hall is it? Each team plays two or three games in its own.
at_first = {game: w.truth(f"{game} at the {games[game][0]}'") for game in games}
own_hall = {team: [] for team in teams}
for game, (one, other) in games.items():
    for team, at_home in ((one, at_first[game]), (other, ~at_first[game])):
        own_hall[team].append(at_home)
        if team == "Foxes":
            w.require(implies(round_of[game] <= 2, ~at_home), under="the Foxes' hall opens late")
        if team == "Bees":
            w.require(implies(round_of[game] == 1, at_home), under="Bees begin at home")
for team in teams:
    w.require((count(own_hall[team]) >= 2) & (count(own_hall[team]) <= 3))

plans = w.plans(round_of.values())
print(plans.headline())
first = plans.whole[0]
for number in range(1, 6):
    played = [game for game in games if first[game] == number]
    hosts = [games[game][not first[at_first[game].name]] for game in played]
    print(f"{number}:", ", ".join(f"{game} at the {host}'" for game, host in zip(played, hosts)))
