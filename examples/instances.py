#!/usr/bin/env python3
"""Writes 63 problems of twelve domains, in the shape of the planning competitions of 2004 to 2008, from a few states to
millions of them: one text each, domain and problem.

    examples/instances.py FOLDER
"""

import random
import sys
from pathlib import Path

REQUIREMENTS = "(:requirements :adl :probabilistic-effects :rewards)"
STEPS = {"north": (0, 1), "east": (1, 0), "south": (0, -1), "west": (-1, 0)}


def facts(predicate, rows):
    """A fact for each row of objects."""
    return " ".join(f"({predicate} {' '.join(row)})" for row in rows)


def text_of(domain, body, objects, init, goal, reward):
    """The text of a domain and a problem of it; objects are lists by their types."""
    listed = " ".join(f"{' '.join(names)} - {kind}" for kind, names in objects.items() if names)
    return f"""(define (domain {domain}) {REQUIREMENTS}
{body.strip()})
(define (problem one) (:domain {domain}) (:objects {listed})
  (:init {init})
  (:goal {goal}) (:goal-reward {reward}))
"""


def towers(blocks, draw):
    """Facts of towers of one to three blocks, in an order that is drawn."""
    order = blocks[:]
    draw.shuffle(order)
    found = []
    while order:
        tower = [order.pop() for _ in range(min(len(order), draw.randint(1, 3)))]
        found.append(facts("on-table", [tower[:1]]))
        found += [facts("on", [pair]) for pair in zip(tower[1:], tower)]
        found.append(facts("clear", [tower[-1:]]))
    return " ".join(found)


def cells(width, height):
    """The places of a grid, by their numbers."""
    return {(x, y): f"c{x}-{y}" for x in range(width) for y in range(height)}


def neighbours(grid):
    """The pairs of places that lie side by side, with the direction."""
    return [
        (way, grid[x, y], grid[x + right, y + up])
        for x, y in grid
        for way, (right, up) in STEPS.items()
        if (x + right, y + up) in grid
    ]


TRIANGLE = """
  (:types place)
  (:predicates (car-at ?here - place) (spare-at ?here - place) (road ?here ?there - place) (inflated))
  (:action drive :parameters (?here ?there - place)
    :precondition (and (car-at ?here) (road ?here ?there) (inflated))
    :effect (and (car-at ?there) (not (car-at ?here)) (probabilistic 1/2 (not (inflated)))))
  (:action change-tire :parameters (?here - place)
    :precondition (and (spare-at ?here) (car-at ?here))
    :effect (and (not (spare-at ?here)) (inflated)))
"""


def triangle(rows):
    """A triangle of roads with spares on two sides: the safe way is the long one."""
    name = lambda row, place: f"r{row}-{place}"
    places = {(row, place) for row in range(1, rows + 2) for place in range(1, rows + 3 - row)}
    ways = ((0, 1), (1, 0), (-1, 1))
    roads = [
        (name(row, place), name(row + up, place + right))
        for row, place in sorted(places)
        for up, right in ways
        if (row + up, place + right) in places
    ]
    spares = {name(row, place) for row, place in places if row > 1 and place in (1, rows + 2 - row)}
    init = f"(car-at r1-1) (inflated) {facts('road', roads)} {facts('spare-at', [[it] for it in sorted(spares)])}"
    objects = {"place": [name(*it) for it in sorted(places)]}
    return text_of("triangle", TRIANGLE, objects, init, f"(car-at {name(1, rows + 1)})", 1000)


EXPLODING = """
  (:types block)
  (:predicates (on ?above ?below - block) (on-table ?block - block) (clear ?block - block) (holding ?block - block)
    (hand-empty) (armed ?block - block) (whole ?block - block) (table-whole))
  (:action take-off :parameters (?above ?below - block)
    :precondition (and (hand-empty) (clear ?above) (on ?above ?below) (whole ?above))
    :effect (and (holding ?above) (clear ?below) (not (hand-empty)) (not (on ?above ?below))))
  (:action take-up :parameters (?block - block)
    :precondition (and (hand-empty) (clear ?block) (on-table ?block) (whole ?block))
    :effect (and (holding ?block) (not (hand-empty)) (not (on-table ?block))))
  (:action put-down :parameters (?block - block)
    :precondition (and (holding ?block) (table-whole))
    :effect (and (hand-empty) (on-table ?block) (not (holding ?block))
      (probabilistic 2/5 (when (armed ?block) (and (not (table-whole)) (not (armed ?block)))))))
  (:action put-on :parameters (?above ?below - block)
    :precondition (and (holding ?above) (clear ?below) (whole ?below) (not (= ?above ?below)))
    :effect (and (hand-empty) (on ?above ?below) (not (holding ?above)) (not (clear ?below))
      (probabilistic 1/10 (when (armed ?above) (and (not (whole ?below)) (not (armed ?above)))))))
"""


def exploding(count, seed):
    """Blocks that may go off as they are put down; three of them are to stand on each other."""
    draw = random.Random(seed)
    blocks = [f"b{number}" for number in range(1, count + 1)]
    stand = towers(blocks, draw)
    order = blocks[:]
    draw.shuffle(order)
    each = [[block] for block in blocks]
    init = f"(hand-empty) (table-whole) {facts('armed', each)} {facts('whole', each)} {stand}"
    goal = f"(and {facts('on', zip(order, order[1:3]))})"
    return text_of("exploding", EXPLODING, {"block": blocks}, init, goal, 200)


DROPPED = """
  (:types block)
  (:predicates (on ?above ?below - block) (on-table ?block - block) (clear ?block - block) (holding ?block - block)
    (hand-empty))
  (:action take-off :parameters (?above ?below - block)
    :precondition (and (hand-empty) (clear ?above) (on ?above ?below) (not (= ?above ?below)))
    :effect (and (decrease (reward) 1) (probabilistic
      3/4 (and (holding ?above) (clear ?below) (not (hand-empty)) (not (on ?above ?below)) (not (clear ?above)))
      1/4 (and (clear ?below) (on-table ?above) (not (on ?above ?below))))))
  (:action take-up :parameters (?block - block)
    :precondition (and (hand-empty) (clear ?block) (on-table ?block))
    :effect (and (decrease (reward) 1) (probabilistic
      3/4 (and (holding ?block) (not (hand-empty)) (not (on-table ?block)) (not (clear ?block))))))
  (:action put-on :parameters (?above ?below - block)
    :precondition (and (holding ?above) (clear ?below) (not (= ?above ?below)))
    :effect (and (decrease (reward) 1) (hand-empty) (clear ?above) (not (holding ?above))
      (probabilistic 3/4 (and (on ?above ?below) (not (clear ?below))) 1/4 (on-table ?above))))
  (:action put-down :parameters (?block - block)
    :precondition (holding ?block)
    :effect (and (decrease (reward) 1) (hand-empty) (clear ?block) (on-table ?block) (not (holding ?block))))
"""


def dropped(count, seed):
    """Blocks that fall on the table one time in four; all are to stand in one tower."""
    draw = random.Random(seed)
    blocks = [f"b{number}" for number in range(1, count + 1)]
    stand = towers(blocks, draw)
    order = blocks[:]
    draw.shuffle(order)
    goal = f"(and {facts('on', zip(order, order[1:]))} (on-table {order[-1]}))"
    return text_of("blocks", DROPPED, {"block": blocks}, f"(hand-empty) {stand}", goal, 500)


BOXES = """
  (:types town box truck)
  (:predicates (road ?from ?to - town) (astray ?from ?to ?other - town) (box-at ?box - box ?town - town)
    (truck-at ?truck - truck ?town - town) (loaded ?box - box ?truck - truck))
  (:action load :parameters (?box - box ?truck - truck ?town - town)
    :precondition (and (box-at ?box ?town) (truck-at ?truck ?town))
    :effect (and (decrease (reward) 1) (loaded ?box ?truck) (not (box-at ?box ?town))))
  (:action unload :parameters (?box - box ?truck - truck ?town - town)
    :precondition (and (loaded ?box ?truck) (truck-at ?truck ?town))
    :effect (and (decrease (reward) 1) (box-at ?box ?town) (not (loaded ?box ?truck))))
  (:action drive :parameters (?truck - truck ?from ?to ?other - town)
    :precondition (and (truck-at ?truck ?from) (road ?from ?to) (astray ?from ?to ?other))
    :effect (and (decrease (reward) 3) (not (truck-at ?truck ?from))
      (probabilistic 4/5 (truck-at ?truck ?to) 1/5 (truck-at ?truck ?other))))
"""


def boxes(count, freight, seed):
    """Boxes that one truck carries between towns on a ring with some more roads."""
    draw = random.Random(seed)
    towns = [f"c{number}" for number in range(count)]
    pairs = list(zip(towns, towns[1:] + towns[:1]))
    pairs += [tuple(draw.sample(towns, 2)) for _ in range(count // 3)]
    roads = sorted({road for one, other in pairs for road in ((one, other), (other, one)) if one != other})
    others = [(start, end, [to for of, to in roads if of == start and to != end]) for start, end in roads]
    astray = [(start, end, (ends or [end])[0]) for start, end, ends in others]
    names = [f"x{number}" for number in range(freight)]
    stand = facts("box-at", [(box, draw.choice(towns)) for box in names])
    goal = facts("box-at", [(box, draw.choice(towns)) for box in names])
    init = f"{facts('road', roads)} {facts('astray', astray)} (truck-at lorry c0) {stand}"
    objects = {"town": towns, "box": names, "truck": ["lorry"]}
    return text_of("boxes", BOXES, objects, init, f"(and {goal})", 1000)


GRIPPER = """
  (:types ball room hand)
  (:predicates (robot-at ?room - room) (at ?ball - ball ?room - room) (free ?hand - hand) (held ?ball - ball ?hand - hand))
  (:action move :parameters (?from ?to - room)
    :precondition (and (robot-at ?from) (not (= ?from ?to)))
    :effect (and (decrease (reward) 1) (robot-at ?to) (not (robot-at ?from))))
  (:action pick :parameters (?ball - ball ?room - room ?hand - hand)
    :precondition (and (at ?ball ?room) (robot-at ?room) (free ?hand))
    :effect (and (decrease (reward) 1)
      (probabilistic 4/5 (and (held ?ball ?hand) (not (at ?ball ?room)) (not (free ?hand))))))
  (:action drop :parameters (?ball - ball ?room - room ?hand - hand)
    :precondition (and (held ?ball ?hand) (robot-at ?room))
    :effect (and (decrease (reward) 1) (at ?ball ?room) (free ?hand) (not (held ?ball ?hand))))
"""


def gripper(count):
    """Balls that a robot with two hands carries to the next room."""
    balls = [f"b{number}" for number in range(count)]
    init = f"(robot-at here) (free left) (free right) {facts('at', [(ball, 'here') for ball in balls])}"
    objects = {"ball": balls, "room": ["here", "there"], "hand": ["left", "right"]}
    goal = f"(and {facts('at', [(ball, 'there') for ball in balls])})"
    return text_of("gripper", GRIPPER, objects, init, goal, 500)


ZENO = """
  (:types person city plane fuel)
  (:predicates (at ?person - person ?city - city) (aboard ?person - person ?plane - plane)
    (plane-at ?plane - plane ?city - city) (tank ?plane - plane ?level - fuel) (next ?low ?high - fuel)
    (boards ?person - person ?plane - plane))
  (:action call-up :parameters (?person - person ?plane - plane ?city - city)
    :precondition (and (at ?person ?city) (plane-at ?plane ?city))
    :effect (and (decrease (reward) 1) (not (at ?person ?city)) (boards ?person ?plane)))
  (:action board :parameters (?person - person ?plane - plane)
    :precondition (boards ?person ?plane)
    :effect (and (decrease (reward) 1)
      (probabilistic 1/2 (and (aboard ?person ?plane) (not (boards ?person ?plane))))))
  (:action leave :parameters (?person - person ?plane - plane ?city - city)
    :precondition (and (aboard ?person ?plane) (plane-at ?plane ?city))
    :effect (and (decrease (reward) 2) (at ?person ?city) (not (aboard ?person ?plane))))
  (:action fly :parameters (?plane - plane ?from ?to - city ?high ?low - fuel)
    :precondition (and (plane-at ?plane ?from) (tank ?plane ?high) (next ?low ?high) (not (= ?from ?to))
      (forall (?person - person) (not (boards ?person ?plane))))
    :effect (and (decrease (reward) 4) (not (plane-at ?plane ?from)) (not (tank ?plane ?high)) (tank ?plane ?low)
      (probabilistic 9/10 (plane-at ?plane ?to) 1/10 (plane-at ?plane ?from))))
  (:action refuel :parameters (?plane - plane ?high ?low - fuel)
    :precondition (and (tank ?plane ?low) (next ?low ?high))
    :effect (and (decrease (reward) 2) (probabilistic 3/4 (and (tank ?plane ?high) (not (tank ?plane ?low))))))
"""


def zeno(passengers, count, fleet, seed):
    """Passengers who fly between cities; a plane waits for all who board it."""
    draw = random.Random(seed)
    people = [f"p{number}" for number in range(passengers)]
    cities = [f"c{number}" for number in range(count)]
    planes = [f"t{number}" for number in range(fleet)]
    levels = [f"f{number}" for number in range(4)]
    stand = facts("plane-at", [(plane, draw.choice(cities)) for plane in planes])
    wait = facts("at", [(person, draw.choice(cities)) for person in people])
    goal = facts("at", [(person, draw.choice(cities)) for person in people])
    tanks = facts("tank", [(plane, "f1") for plane in planes])
    init = f"{facts('next', zip(levels, levels[1:]))} {stand} {tanks} {wait}"
    objects = {"person": people, "city": cities, "plane": planes, "fuel": levels}
    return text_of("zeno", ZENO, objects, init, f"(and {goal})", 500)


ELEVATORS = """
  (:types elevator floor place coin)
  (:constants f1 - floor p1 - place)
  (:predicates (above ?upper ?lower - floor) (right-of ?right ?left - place) (elevator-at ?elevator - elevator ?floor - floor)
    (at ?floor - floor ?place - place) (shaft ?elevator - elevator ?place - place) (inside ?elevator - elevator)
    (gate ?floor - floor ?place - place) (coin-at ?coin - coin ?floor - floor ?place - place) (have ?coin - coin))
  (:action ride-up :parameters (?elevator - elevator ?lower ?upper - floor)
    :precondition (and (above ?upper ?lower) (elevator-at ?elevator ?lower))
    :effect (and (decrease (reward) 1) (elevator-at ?elevator ?upper) (not (elevator-at ?elevator ?lower))))
  (:action ride-down :parameters (?elevator - elevator ?upper ?lower - floor)
    :precondition (and (above ?upper ?lower) (elevator-at ?elevator ?upper))
    :effect (and (decrease (reward) 1) (elevator-at ?elevator ?lower) (not (elevator-at ?elevator ?upper))))
  (:action step-in :parameters (?elevator - elevator ?floor - floor ?place - place)
    :precondition (and (at ?floor ?place) (elevator-at ?elevator ?floor) (shaft ?elevator ?place))
    :effect (and (decrease (reward) 1) (inside ?elevator) (not (at ?floor ?place))))
  (:action step-out :parameters (?elevator - elevator ?floor - floor ?place - place)
    :precondition (and (inside ?elevator) (elevator-at ?elevator ?floor) (shaft ?elevator ?place))
    :effect (and (decrease (reward) 1) (at ?floor ?place) (not (inside ?elevator))))
  (:action walk :parameters (?floor - floor ?here ?there - place)
    :precondition (and (at ?floor ?here) (or (right-of ?here ?there) (right-of ?there ?here)) (not (gate ?floor ?here)))
    :effect (and (decrease (reward) 1) (not (at ?floor ?here)) (at ?floor ?there)))
  (:action pass-gate :parameters (?floor - floor ?here ?there - place)
    :precondition (and (at ?floor ?here) (or (right-of ?here ?there) (right-of ?there ?here)) (gate ?floor ?here))
    :effect (and (decrease (reward) 1) (not (at ?floor ?here))
      (probabilistic 1/2 (at ?floor ?there) 1/2 (at f1 p1))))
  (:action take :parameters (?coin - coin ?floor - floor ?place - place)
    :precondition (and (coin-at ?coin ?floor ?place) (at ?floor ?place))
    :effect (and (decrease (reward) 1) (have ?coin) (not (coin-at ?coin ?floor ?place))))
"""


def elevators(height, width, lying=None):
    """Coins in a house with one elevator and a gate at the top; two of them, or those that lie as is said."""
    floors = [f"f{number}" for number in range(1, height + 1)]
    places = [f"p{number}" for number in range(1, width + 1)]
    coins = lying or [("c1", floors[-1], "p1"), ("c2", "f2", places[-1])]
    steps = f"{facts('above', zip(floors[1:], floors))} {facts('right-of', zip(places[1:], places))}"
    stand = f"(at f1 p1) (elevator-at lift {floors[-1]}) (shaft lift {places[-1]}) (gate {floors[-1]} p2)"
    names = [name for name, _, _ in coins]
    objects = {"floor": floors[1:], "place": places[1:], "elevator": ["lift"], "coin": names}
    goal = f"(and {facts('have', [[name] for name in names])})"
    return text_of("elevators", ELEVATORS, objects, f"{stand} {steps} {facts('coin-at', coins)}", goal, 500)


def scattered(height, width, count, seed):
    """Elevators with coins at places that are drawn."""
    draw = random.Random(seed)
    coins = [f"c{number}" for number in range(count)]
    return elevators(
        height, width, [(coin, f"f{draw.randint(1, height)}", f"p{draw.randint(1, width)}") for coin in coins]
    )


WORKSHOP = """
  (:types part machine)
  (:predicates (done ?part - part ?machine - machine) (before ?first ?second - machine) (busy ?machine - machine)
    (worn ?machine - machine) (on ?part - part ?machine - machine))
  (:action put :parameters (?part - part ?machine - machine)
    :precondition (and (not (busy ?machine)) (not (worn ?machine)) (not (done ?part ?machine))
      (forall (?other - machine)
        (and (not (on ?part ?other)) (imply (before ?other ?machine) (done ?part ?other)))))
    :effect (and (decrease (reward) 1) (busy ?machine) (on ?part ?machine)))
  (:action run :parameters (?part - part ?machine - machine)
    :precondition (on ?part ?machine)
    :effect (and (decrease (reward) 1) (probabilistic
      7/10 (and (done ?part ?machine) (not (on ?part ?machine)) (not (busy ?machine)))
      1/10 (and (not (on ?part ?machine)) (not (busy ?machine)) (worn ?machine)))))
  (:action mend :parameters (?machine - machine)
    :precondition (worn ?machine)
    :effect (and (decrease (reward) 4) (not (worn ?machine))))
"""


def workshop(count, kinds, seed):
    """Parts that go through some of the machines, which wear out now and then."""
    draw = random.Random(seed)
    parts = [f"k{number}" for number in range(count)]
    machines = ["lathe", "drill", "saw", "polisher"][:kinds]
    wanted = [
        (part, machine)
        for part in parts
        for machine in draw.sample(machines, min(len(machines), 1 + draw.randrange(len(machines))))
    ]
    objects = {"part": parts, "machine": machines}
    init = facts("before", zip(machines, machines[1:]))
    return text_of("workshop", WORKSHOP, objects, init, f"(and {facts('done', wanted)})", 300)


DRIVE = """
  (:types corner length)
  (:constants short medium long - length)
  (:predicates (at ?here - corner) (street ?here ?there - corner ?length - length) (alive) (green ?here - corner)
    (seen ?here - corner))
  (:action look :parameters (?here - corner)
    :precondition (and (alive) (at ?here) (not (seen ?here)))
    :effect (and (decrease (reward) 1) (seen ?here) (probabilistic 1/2 (green ?here))))
  (:action wait :parameters (?here - corner)
    :precondition (and (alive) (at ?here) (seen ?here) (not (green ?here)))
    :effect (and (decrease (reward) 1) (probabilistic 1/2 (green ?here))))
  (:action go-short :parameters (?here ?there - corner)
    :precondition (and (alive) (at ?here) (green ?here) (street ?here ?there short))
    :effect (and (decrease (reward) 1) (at ?there) (not (at ?here)) (probabilistic 1/50 (not (alive)))))
  (:action go-medium :parameters (?here ?there - corner)
    :precondition (and (alive) (at ?here) (green ?here) (street ?here ?there medium))
    :effect (and (decrease (reward) 2) (at ?there) (not (at ?here)) (probabilistic 1/20 (not (alive)))))
  (:action go-long :parameters (?here ?there - corner)
    :precondition (and (alive) (at ?here) (green ?here) (street ?here ?there long))
    :effect (and (decrease (reward) 3) (at ?there) (not (at ?here)) (probabilistic 1/10 (not (alive)))))
"""


def drive(size, seed):
    """A drive through a town: longer streets cost more and may end it for good. A few streets are closed."""
    draw = random.Random(seed)
    grid = cells(size, size)
    streets = [
        (here, there, draw.choice(["short", "medium", "long"]))
        for _, here, there in neighbours(grid)
        if draw.random() < 0.97
    ]
    init = f"(at c0-0) (alive) {facts('street', streets)}"
    goal = f"(and (alive) (at c{size - 1}-{size - 1}))"
    return text_of("drive", DRIVE, {"corner": list(grid.values())}, init, goal, 200)


RECTANGLE = """
  (:types place)
  (:predicates (car-at ?here - place) (road ?here ?there - place) (spare-at ?here - place) (has-spare) (flat)
    (rough ?here - place))
  (:action drive :parameters (?here ?there - place)
    :precondition (and (car-at ?here) (road ?here ?there) (not (flat)))
    :effect (and (decrease (reward) 1) (car-at ?there) (not (car-at ?here))
      (when (rough ?there) (probabilistic 3/5 (flat))) (when (not (rough ?there)) (probabilistic 1/5 (flat)))))
  (:action pick-spare :parameters (?here - place)
    :precondition (and (car-at ?here) (spare-at ?here) (not (has-spare)))
    :effect (and (decrease (reward) 1) (has-spare) (not (spare-at ?here))))
  (:action change-tire :precondition (and (flat) (has-spare))
    :effect (and (decrease (reward) 2) (probabilistic 4/5 (and (not (flat)) (not (has-spare))))))
  (:action call-help :precondition (flat)
    :effect (and (decrease (reward) 30) (not (flat))))
"""


def rectangle(size, seed):
    """A square of places: half of them have a spare, and a quarter are hard on tires."""
    draw = random.Random(seed)
    grid = cells(size, size)
    places = list(grid.values())
    spares = draw.sample(places, len(places) // 2)
    rough = draw.sample(places[1:-1], len(places) // 4)
    roads = [(here, there) for _, here, there in neighbours(grid)]
    init = f"(car-at c0-0) {facts('road', roads)} {facts('spare-at', [[it] for it in spares])}"
    init += f" {facts('rough', [[it] for it in rough])}"
    return text_of("rectangle", RECTANGLE, {"place": places}, init, f"(car-at {places[-1]})", 300)


MACHINES = """
  (:types machine)
  (:predicates (up ?machine - machine) (linked ?from ?to - machine))
  (:action reboot :parameters (?machine - machine) :precondition (not (up ?machine))
    :effect (and (decrease (reward) 3)
      (forall (?other - machine)
        (when (and (up ?other) (not (= ?other ?machine))
            (exists (?near - machine) (and (linked ?near ?other) (not (up ?near)))))
          (probabilistic 1/5 (not (up ?other)))))
      (probabilistic 9/10 (up ?machine))))
  (:action watch
    :effect (and (decrease (reward) 1)
      (forall (?other - machine) (when (up ?other) (probabilistic 1/20 (not (up ?other)))))))
"""


def machines(count):
    """Machines on a ring, which go down sooner beside one that is down; some are up at first, by chance."""
    names = [f"m{number}" for number in range(count)]
    init = f"{facts('linked', zip(names, names[1:] + names[:1]))} (probabilistic 1/2 (and (up m0) (up m1)) 1/4 (up m0))"
    return text_of("machines", MACHINES, {"machine": names}, init, "(forall (?it - machine) (up ?it))", 60)


SLIPPERY = """
  (:types cell way)
  (:predicates (at ?cell - cell) (next ?way - way ?from ?to - cell) (sides ?way ?left ?right - way))
  (:action go :parameters (?way ?left ?right - way)
    :precondition (sides ?way ?left ?right)
    :effect (and (decrease (reward) 1) (probabilistic
      8/10 (forall (?from ?to - cell) (when (and (at ?from) (next ?way ?from ?to)) (and (at ?to) (not (at ?from)))))
      1/10 (forall (?from ?to - cell) (when (and (at ?from) (next ?left ?from ?to)) (and (at ?to) (not (at ?from)))))
      1/10 (forall (?from ?to - cell) (when (and (at ?from) (next ?right ?from ?to)) (and (at ?to) (not (at ?from))))))))
"""


def slippery(size):
    """A grid on which a step may slip to a side."""
    grid = cells(size, size)
    ways = list(STEPS)
    sides = [(way, ways[number - 1], ways[(number + 1) % 4]) for number, way in enumerate(ways)]
    init = f"(at c0-0) {facts('sides', sides)} {facts('next', neighbours(grid))}"
    objects = {"cell": list(grid.values()), "way": ways}
    return text_of("slippery", SLIPPERY, objects, init, f"(at c{size - 1}-{size - 1})", 1000)


def instances():
    """The problems by their names."""
    found = {f"triangle-{rows:02}": triangle(rows) for rows in (2, 3, 4, 5, 6, 8, 10, 12, 14)}
    for count, seed in ((3, 1), (4, 2), (5, 3), (6, 4), (6, 9), (7, 5), (7, 6), (8, 7), (8, 8)):
        found[f"exploding-{count}-{seed}"] = exploding(count, seed)
    for count in range(3, 10):
        found[f"blocks-{count}"] = dropped(count, count - 2)
    for count, freight, seed in ((3, 1, 1), (4, 2, 2), (5, 3, 3), (6, 4, 4), (8, 5, 5), (10, 6, 6)):
        found[f"boxes-{count:02}-{freight}"] = boxes(count, freight, seed)
    for count in range(2, 14, 2):
        found[f"gripper-{count:02}"] = gripper(count)
    for people, cities, planes, seed in ((2, 3, 1, 1), (2, 4, 2, 2), (3, 4, 2, 3), (4, 5, 2, 4), (5, 5, 1, 5)):
        found[f"zeno-{people}-{cities}-{planes}"] = zeno(people, cities, planes, seed)
    for size in (3, 4, 6):
        found[f"elevators-{size}"] = elevators(size, size)
    for size, count, seed in ((5, 5, 1), (7, 8, 2)):
        found[f"elevators-{size}-{count}"] = scattered(size, size, count, seed)
    for count, kinds, seed in ((2, 2, 1), (3, 3, 2), (5, 3, 3), (6, 4, 4)):
        found[f"workshop-{count}-{kinds}"] = workshop(count, kinds, seed)
    for size, seed in ((3, 1), (4, 5), (6, 4), (8, 3)):
        found[f"drive-{size}"] = drive(size, seed)
    for size in range(3, 7):
        found[f"rectangle-{size}"] = rectangle(size, size - 2)
    for count in (3, 5, 7):
        found[f"machines-{count}"] = machines(count)
    found["slippery-8"] = slippery(8)
    return found


def main():
    if len(sys.argv) != 2:
        sys.exit("usage: examples/instances.py FOLDER")
    folder = Path(sys.argv[1])
    folder.mkdir(parents=True, exist_ok=True)
    for name, text in instances().items():
        (folder / f"{name}.ppddl").write_text(text)


main()
