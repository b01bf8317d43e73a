#!/usr/bin/env python3
"""Measures sgfsplit on inputs that are made to hurt, and prints a table.

  bench/hostile.py [--mib N,..] [--only NAME,..] [--forms list,sgf,gtp,count] [--large] [--limit GIB] [--seconds N] [--table FILE]
  bench/hostile.py --from FILE                the short table of an earlier run

  SGFSPLIT   the program (crates/sgfsplit/out/sgfsplit)
  PEER       another program with the same words, which is run beside it

Each input is made as large as N MiB allow (64, the program's limit), or smaller if its output would grow with its square; with several N, once
for each. With --large, forms whose output is hundreds of times as long as the input are measured too. A run has at most GIB of memory (16)
and N seconds (300). For each input and form the table has the bytes read and written, the processor seconds, and the nanoseconds per byte
read or written. It also has the peak memory, that memory per byte read, and the status if it isn't 0. With PEER it has that program's
processor seconds, and says if the outputs differ. The short table of docs/PERFORMANCE.md comes last. Needs /usr/bin/time.
"""
import argparse
import hashlib
import itertools
import os
import random
import re
import resource
import subprocess
import sys
import tempfile

from compare import PEER, PROGRAM, progress, words

LETTERS = "abcdefghijklmnopqrstuvwxyzABCDEFGHIJKLMNOPQRSTUVWXYZ"
FORMS = ["list", "sgf", "gtp", "count"]
LIMIT = 67_108_864


def point(col, row):
    return LETTERS[col] + LETTERS[row]


def repeated(size, front, unit, rest):
    """The front, as many units as there is room for, and the rest."""
    return front + unit * ((size - len(front) - len(rest)) // len(unit)) + rest


def nested(size, units):
    """Games inside one another, each begun by the unit."""
    count = size // (len(units) + 1)
    return units * count + ")" * count


def regions(side, left, rows):
    """Regions in one half of a board, with the walls around them."""
    half = (side - 3) // 2
    cols = range(half) if left else range(side - half, side)
    wall = half if left else side - half - 1
    walls = [point(wall, row) for row in range(side)]
    found, row = [], 0
    while row < side:
        height = min(rows, side - row)
        found.append([point(col, y) for y in range(row, row + height) for col in cols])
        row += height
        if row < side:
            walls += [point(col, row) for col in cols]
            row += 1
    return found, walls


def counting(areas):
    """The stones of a counter whose digits are regions. The first region changes fastest. A full region is emptied by its own suicide, and is
    filled in the other order the next time, so that no colouring comes twice."""
    digits = [0] * len(areas)
    while True:
        top = 0
        while digits[top] == len(areas[top]) - 1:
            top += 1
        for which in range(top, -1, -1):
            yield areas[which][digits[which]]
            digits[which] += 1
            if digits[which] == len(areas[which]):
                digits[which] = 0
                areas[which].reverse()


def long_line(size, side):
    """One line of moves, all legal, after one setup: both players count in regions of their half."""
    rows = 2 if side < 30 else 8
    black, white_walls = regions(side, True, rows)
    white, black_walls = regions(side, False, rows)
    front = (f"(;SZ[{side}]AW" + "".join(f"[{p}]" for p in white_walls) + "AB" + "".join(f"[{p}]" for p in black_walls) + "PL[B]")
    blacks, whites = counting(black), counting(white)
    count = (size - len(front) - 1) // 12
    return front + "".join(f";B[{next(blacks)}];W[{next(whites)}]" for _ in range(count)) + ")"


def equal_keys(size):
    """One line of moves, half of whose colourings have the same 16 low bits in their prints. Each pair of points is 2,048 places apart, row by row,
    so both add the same to these bits, and always one of the two is black. White passes."""
    chance = random.Random(19)
    pairs, walls = [], set()
    for row in (1, 4, 7, 10):
        for col in range(1, 30, 4):
            pair = []
            for c, r in ((col, row), (col + 20, row + 39)):
                pair.append((point(c, r), point(c + 1, r)))
                walls.update(point(x, y) for x, y in ((c - 1, r), (c + 2, r), (c, r - 1), (c + 1, r - 1), (c, r + 1), (c + 1, r + 1))
                             if x < 52 and y < 52)
            pairs.append(pair)
    text = ["(;SZ[52]AW" + "".join(f"[{p}]" for p in sorted(walls)) + "PL[B]"]
    text += [f";B[{pair[0][0]}];W[]" for pair in pairs]
    state = 0
    seen = {state}

    def flip(which):
        nonlocal state
        now = state >> which & 1
        text.append(f";B[{pairs[which][1 - now][0]}];W[];B[{pairs[which][now][1]}];W[]")
        state ^= 1 << which
        seen.add(state)

    for which in range(len(pairs) // 2):
        flip(which)
    up = True
    for _ in range((size - sum(map(len, text)) - 1) // 20):
        which = chance.choice([i for i in range(len(pairs)) if (state >> i & 1) != up and state ^ 1 << i not in seen])
        flip(which)
        up = not up
    return "".join(text) + ")"


def far_right(size):
    """One line of moves whose colourings differ only in the last two columns of side 52: holes of two points behind black walls. White fills
    half a hole or fills it, which is suicide; no colouring comes twice. Black passes."""
    rows = range(0, 52, 2)
    first, last = LETTERS[50], LETTERS[51]
    front = ("(;SZ[52]AB" + f"[{LETTERS[49]}a:{LETTERS[49]}Z]" + "".join(f"[{first}{LETTERS[row + 1]}:{last}{LETTERS[row + 1]}]" for row in rows)
             + "PL[W]" + "".join(f";W[{first}{LETTERS[row]}];B[]" for row in rows))
    room = (size - len(front) - 1) // 10
    # a hole goes the way filled on the left, empty, filled on the right, and back; the next hole steps where it turns
    states, ways, moves = [0] * len(rows), [1] * len(rows), []
    while len(moves) < room:
        which = 0
        while not 0 <= states[which] + ways[which] <= 2:
            ways[which] = -ways[which]
            which += 1
        old, states[which] = states[which], states[which] + ways[which]
        column = {(0, 1): last, (1, 2): last, (2, 1): first, (1, 0): first}[old, states[which]]
        moves.append(f";W[{column}{LETTERS[rows[which]]}];B[]")
    return front + "".join(moves) + ")"


def signs(count):
    """Two halves of the numbers below `count`, by how many bits of a number are set. The sums of 31 to the power of 64 times them are the same:
    modulo 2^64 if there are 32 numbers, modulo 2^36 if there are 8."""
    return [[i for i in range(count) if i.bit_count() % 2 == half] for half in (0, 1)]


def hole_sets(side, count):
    """Sets of holes of two points, the first points 64 points apart row by row, so that no two holes of all sets touch."""
    sets, taken = [], set()
    for base in range(side * side - (count - 1) * 64):
        cells = [divmod(base + 64 * i, side) for i in range(count)]
        holes = [((row, col), (row, col + 1)) for row, col in cells]
        around = {(y, x) for hole in holes for row, col in hole for y, x in ((row, col), (row - 1, col), (row + 1, col), (row, col - 1), (row, col + 1))}
        if all(col < side - 1 for _, col in cells) and not around & taken:
            sets.append(holes)
            taken.update(point for hole in holes for point in hole)
    return sets


def equal_prints(size, count):
    """One line of moves, most colourings of which have very many before them with the same print (sets of 32 holes) or the same 36 low bits of it
    (sets of 8): a half of each set is filled, and the sets turn over one after another. Black fills the rest of a hole, which is suicide; White
    passes."""
    side = 52
    halves, sets = signs(count), hole_sets(side, count)
    name = lambda place: point(place[1], place[0])
    holes = {place for holes in sets for hole in holes for place in hole}
    walls = {(y, x) for row, col in holes for y, x in ((row - 1, col), (row + 1, col), (row, col - 1), (row, col + 1))
             if 0 <= y < side and 0 <= x < side} - holes
    text = ["(;SZ[52]AW" + "".join(f"[{name(place)}]" for place in sorted(walls))
            + "AB" + "".join(f"[{name(holes[i][0])}]" for holes in sets for i in halves[0]) + "PL[B]"]
    room = size - len(text[0]) - 1
    turned = [0] * len(sets)
    for step in range(1, 1 << len(sets)):
        which = (step & -step).bit_length() - 1
        now, then = halves[turned[which]], halves[1 - turned[which]]
        turned[which] = 1 - turned[which]
        for old, new in zip(now, then):
            text.append(f";B[{name(sets[which][old][1])}];W[];B[{name(sets[which][new][0])}];W[]")
        if step * 10 * count >= room:
            break
    return "".join(text)[:len(text[0]) + max(room, 0) // 20 * 20] + ")"


# Holes of two points, by number: the even ones are Black's, on the left, the odd ones White's, on the right. The second entry says which of the
# two points gets a stone, the third says whether it stands there at first (1) or only later (-1). The stones of both kinds have the same sum
# of codes times powers of 31, modulo 2^64. So the print stays the same when all these holes turn over.
BALANCED = ((9, 0, -1), (2, 1, -1), (1, 0, 1), (0, 0, 1), (22, 1, -1), (21, 1, -1), (16, 0, 1), (14, 1, 1),
            (35, 0, 1), (34, 1, 1), (31, 0, -1), (29, 0, -1), (44, 1, 1), (43, 0, -1), (40, 1, 1), (37, 0, 1))


def small_hole(number, which=0):
    """The points of a hole of two points, on which a stone is put first, and which then fills the hole."""
    row, col = number // 2 * 2 + 1, 49 if number % 2 else 1
    return point(col + which, row), point(col + 1 - which, row)


def turned(hole, filled):
    """The move that turns a hole over: it fills the hole by half, or fills the rest, which is suicide."""
    filled ^= {hole}
    return hole[0] if hole in filled else hole[1]


def by_turns(black, white):
    """Both players' moves in turn. Who has none left passes."""
    return "".join(f";B[{b}];W[{w}]" for b, w in itertools.zip_longest(black, white, fillvalue=""))


def print_sets(worths):
    """For each power of 2 that comes up, a set of holes whose worths add up to a number that it divides, but twice it doesn't."""
    holes, found = list(worths), {}
    sums = [[(0, ())], [(0, ())]]
    for number, hole in enumerate(holes):
        sums[number % 2] += [(total + worths[hole], some + (hole,)) for total, some in sums[number % 2]]
    for bits in range(0, 30, 2):
        ends = {total % (1 << bits): (total, some) for total, some in sums[0]}
        for total, some in sums[1]:
            other, more = ends.get(-total % (1 << bits), (-total, ()))
            power = (total + other & -total - other) % 2**64
            if power not in found or len(some + more) < len(found[power]):
                found[power] = some + more
    return [found[power] for power in sorted(found) if power]


def costly(size):
    """Variations each of whose moves makes the print of a colouring that takes long to work out, but not that colouring. Both players have holes
    of two points and shafts of 51. Some moves come first. Then all shafts are emptied by suicide, filled again, and BALANCED turns over. For many
    bits of the print there is besides a colouring whose print differs first in it: other holes turn over, and the first moves come again each time."""
    filled, steps = {small_hole(number, which) for number, which, sign in BALANCED if sign == 1}, [0, 1, 0, 2, 0, 1, 0, 3, 0, 1, 0, 2, 0, 1, 0, 4]
    used = {number for number, _, _ in BALANCED}
    free = [[small_hole(number) for number in range(player, 50, 2) if number not in used] for player in (0, 1)]
    spare = free[0][5:] + free[1][5:]
    filled |= set(spare[::2])
    worths = {hole: (1 + free[1].count(hole)) * (-1) ** (hole in filled) * 31 ** (2703 - LETTERS.index(hole[0][0]) - 52 * LETTERS.index(hole[0][1]))
              for hole in spare}
    sets = print_sets(worths)
    sets = sets[len(sets) % 2:]
    shafts = [[[point(col, row) for row in range(1, 52)] for col in cols] for cols in (range(4, 25, 2), range(27, 48, 2))]
    holes = {spot for number in range(50) for spot in small_hole(number)} | {spot for half in shafts for shaft in half for spot in shaft}
    stones = [{spot[0] for spot in filled if spot[0][0].isupper() == bool(player)} | {spot for shaft in shafts[player] for spot in shaft[:-1]}
              | {point(col, row) for col in (range(26, 52), range(26))[player] for row in range(52)} - holes - {"aa", "Za"} for player in (0, 1)]
    there = [[turned(free[player][step], filled) for step in steps] for player in (0, 1)]
    back = [[turned(free[player][step], filled) for step in reversed(steps)] for player in (0, 1)]
    over = [[turned(small_hole(number, which), filled) for number, which, _ in BALANCED if number % 2 == player]
            + [turned(hole, filled) for hole in sets[0] if hole in free[player]] for player in (0, 1)]
    refill = [[spot for shaft in shafts[player] for spot in shaft[:-1]] for player in (0, 1)]
    front = ("(;SZ[52]" + "".join(f"A{name}" + "".join(f"[{spot}]" for spot in sorted(own)) for name, own in zip("BW", stones)) + "PL[B]"
             + by_turns(*there) + by_turns(*[[shaft[-1] for shaft in half] for half in shafts])
             + by_turns(*[back[player] + over[player] + refill[player] for player in (0, 1)]))
    both, mover = [own[step] for step in steps for own in free], 0
    for now, then in zip(sets, sets[1:] + [()]):
        for hole in both + sorted(set(then) - set(now)) + sorted(set(now) - set(then)):
            player = int(hole in free[1])
            front += f";{'BW'[mover]}[]" * (player != mover) + f";{'BW'[player]}[{turned(hole, filled)}]"
            mover = 1 - player
        both.reverse()
    front += ";W[]" * mover
    unit = "(" + by_turns(*there) + ")"
    return repeated(max(size, len(front) + len(unit) + 1), front, unit, ")")


def cubes():
    """Sets of places on side 52, each the corners of a cube: the sums of some of its steps. By how many steps a corner has, one adds or takes off
    31 to the power of the corner. The result is divisible by 2^64, or by another power of 2 for each other set: a step adds 5 to its exponent,
    and 1 more each time it can be halved."""
    found = {}
    across = [steps for count in range(4) for steps in itertools.combinations((4, 8, 16, 32), count) if sum(steps) < 52]
    down = [steps for count in range(5) for steps in itertools.combinations((104, 208, 416, 832, 1664), count) if sum(steps) < 2496]
    for steps in [one + other for one in across for other in down][1:]:
        exponent = sum((step & -step).bit_length() + 4 for step in steps)
        if exponent <= 64 and (exponent not in found or len(steps) < len(found[exponent])):
            found[exponent] = steps
    return [{sum(some) for count in range(len(steps) + 1) for some in itertools.combinations(steps, count)}
            for _, steps in sorted(found.items())]


def long_walks(size):
    """Variations each of whose moves makes the print of an earlier colouring, but not that colouring. For nearly each bit of that print there is
    an earlier colouring whose print differs first in it. Black has holes of two points at the corners of cubes, half of them filled. The cubes turn
    over one after another. After each, both players turn other holes over, there and back in turn, and the variations do this once more."""
    sets = cubes()
    places = {52 * row + col: (point(col, row), point(col + 1, row)) for row in range(0, 48, 2) for col in range(0, 52, 4)}
    corners = set().union(*sets)
    free = [[hole for place, hole in places.items() if place not in corners],
            [(point(col, row), point(col + 1, row)) for row in (49, 51) for col in range(0, 9, 3)]]
    odd = {place for place in corners if (bin(place % 52 // 4).count("1") + bin(place // 104).count("1")) % 2}
    filled = {places[place] for place in odd ^ sets[0]}
    outside = {spot for hole in list(places.values()) + free[1] for spot in hole} | {"ZV", "ZX"}
    stones = [{hole[0] for hole in filled} | {point(col, row) for row in range(48, 52) for col in range(52)} - outside,
              {point(col, row) for row in range(48) for col in range(52)} - outside]
    front = "(;SZ[52]" + "".join(f"A{name}" + "".join(f"[{spot}]" for spot in sorted(own)) for name, own in zip("BW", stones)) + "PL[B]"
    both = [own[step] for step in (0, 1, 0, 2, 0, 1, 0, 3, 0, 1, 0, 2, 0, 1, 0, 4) for own in free]
    moves = []
    for now, then in zip(sets, sets[1:] + [set()]):
        moves += [turned(hole, filled) for hole in both] + [""] * (len(moves) % 2)
        for place in sorted(then - now) + sorted(now - then):
            moves += [turned(places[place], filled), ""]
        moves = moves[:-1] if both[0] in free[0] else moves
        both.reverse()
    front += "".join(f";{'BW'[turn % 2]}[{move}]" for turn, move in enumerate(moves))
    unit = "(" + "".join(f";{'WB'[turn % 2]}[{turned(hole, filled)}]" for turn, hole in enumerate(both)) + ")"
    return repeated(max(size, len(front) + len(unit) + 1), front, unit, ")")


# Stones in holes of two points, 6 holes in each of 8 rows: 1 says that the left point of a hole has a stone, 2 the right one. The holes are 3
# points and 2 rows apart. The stones' codes times powers of 31 add up to 0 modulo 2^64, wherever on the board of 52 they stand together.
SHIFTING = "210100 010222 221221 100222 000012 111122 100011 211100".split()


def shifted(right, down):
    """The holes of SHIFTING at a place, by column and row, and which of its points has a stone."""
    return {(col + right, row + down): int(which) - 1 for row, digits in enumerate(SHIFTING) for col, which in enumerate(digits) if which != "0"}


def shifts(size):
    """Variations each of whose moves makes a colouring whose print 192 earlier colourings have, each of which parts from it at another point. Black
    has 17 holes of two points in each of 24 rows. The stones of SHIFTING stand at one place after another. At each, both players turn other holes
    over, there and back in turn. The variations do this once more, without these stones."""
    holes = {(col, row): (point(3 * col, 2 * row), point(3 * col + 1, 2 * row)) for row in range(24) for col in range(17)}
    free = [[holes[col, 23] for col in range(5)], [(point(col, row), point(col + 1, row)) for row in (49, 51) for col in range(0, 9, 3)]]
    sets = [shifted(right, down) for down in range(16) for right in range(12)]
    outside = {spot for hole in list(holes.values()) + free[1] for spot in hole} | {"ZV", "ZX"}
    stones = [{holes[hole][which] for hole, which in sets[0].items()} | {point(col, row) for row in range(48, 52) for col in range(52)} - outside,
              {point(col, row) for row in range(48) for col in range(52)} - outside]
    front = "(;SZ[52]" + "".join(f"A{name}" + "".join(f"[{spot}]" for spot in sorted(own)) for name, own in zip("BW", stones)) + "PL[B]"
    both, filled = [own[step] for step in (0, 1, 0, 2, 0, 1, 0, 3, 0, 1, 0, 2, 0, 1, 0, 4) for own in free], set()
    moves = []
    for now, then in zip(sets, sets[1:] + [{}]):
        moves += [turned(hole, filled) for hole in both] + [""] * (len(moves) % 2)
        changed = sorted(hole for hole in now.keys() & then.keys() if now[hole] != then[hole])
        for spot in ([holes[hole][then[hole]] for hole in sorted(then.keys() - now.keys())]
                     + [holes[hole][1 - now[hole]] for hole in sorted(now.keys() - then.keys()) + changed]
                     + [holes[hole][then[hole]] for hole in changed]):
            moves += [spot, ""]
        moves = moves[:-1] if both[0] in free[0] else moves
        both.reverse()
    front += "".join(f";{'BW'[turn % 2]}[{move}]" for turn, move in enumerate(moves))
    unit = "(" + "".join(f";{'BW'[turn % 2]}[{turned(hole, filled)}]" for turn, hole in enumerate(both)) + ")"
    return repeated(max(size, len(front) + len(unit) + 1), front, unit, ")")


def searches(size):
    """One line of moves on side 52. Black fills a hole of two points in a large white group whose one eye is far away. Every second time this is
    suicide. White counts beside it."""
    white = [[point(col, y) for y in (row, row + 1) for col in range(40, 52)] for row in range(0, 51, 3)]
    black_walls = ["Ma:NZ"] + [f"{LETTERS[40]}{LETTERS[row]}:Z{LETTERS[row]}" for row in range(2, 51, 3)]
    front = "(;SZ[52]AW[aa:LZ]AE[aa]AE[JY:KY]AB" + "".join(f"[{area}]" for area in black_walls) + "PL[B]"
    whites = counting(white)
    count = (size - len(front) - 1) // 24
    return front + "".join(f";B[JY];W[{next(whites)}];B[KY];W[{next(whites)}]" for _ in range(count)) + ")"


def repeats(size):
    """A line of some 70,000 turns, then variations of one move, each of which brings back the colouring that the line began with. White
    counts in two regions with one more stone at each turn, and empties a full region by its own suicide. Black passes."""
    areas, walls = regions(52, True, 8)
    areas = [areas[0], areas[1]]
    held = {stone for area in areas for stone in area}
    outer = [point(col, row) for row in range(52) for col in range(52)]
    front = "(;SZ[52]AB" + "".join(f"[{stone}]" for stone in outer if stone not in held and stone != "ZZ") + "PL[W]"
    line = []
    for stone in counting(areas):
        line.append(f";W[{stone}];B[]")
        if len(line) == len(areas[0]) * (len(areas[1]) - 1) + len(areas[1]) - 1:
            break
    front += "".join(line)
    last = areas[1][-1]
    return repeated(max(size, len(front) + 12), front, f"(;W[{last}])", ")")


def corridor():
    """The points of one corridor through a board of 52, from one end to the other, and its walls."""
    path = []
    for row in range(0, 52, 2):
        cols = range(52) if row % 4 == 0 else range(51, -1, -1)
        path += [point(col, row) for col in cols]
        if row < 50:
            path.append(point(51 if row % 4 == 0 else 0, row + 1))
    inside = set(path)
    walls = [point(col, row) for row in range(52) for col in range(52) if point(col, row) not in inside]
    return path, walls


def labyrinth(size, filled, unit):
    """A labyrinth with black walls, and variations of it. Its corridor is open, or filled by one white group with a liberty at each end."""
    path, walls = corridor()
    stones = "AB" + "".join(f"[{stone}]" for stone in walls)
    if filled:
        stones += "AW" + "".join(f"[{stone}]" for stone in path[1:-1])
    return repeated(max(size, 20_000), "(;SZ[52]" + stones + "PL[B]", unit, ")")


def serpent(side, standing):
    """The points of a white group in a long corridor, the eye at its beginning, and the liberty at its end. Its legs lie along the rows, or
    stand along the columns. All other points are Black's, one group with that liberty, too."""
    white = {(col, row) for col in (1, 2, 3) for row in (1, 2, 3)} - {(2, 2)} | {(1, 4)}
    left, row = True, 5
    while True:
        white |= {(col, row) for col in range(1, side - 1)}
        left = not left
        if row + 2 > side - 2:
            break
        white.add((1 if left else side - 2, row + 1))
        row += 2
    spots = [white, {(2, 2)}, {(0 if left else side - 1, row)}]
    white, eye, liberty = [{(row, col) for col, row in some} for some in spots] if standing else spots
    return white, min(eye), min(liberty)


def besieged(size, side, standing, unit):
    """The board of a serpent, and copies of `unit`, in which EYE and LIBERTY are those points."""
    white, eye, liberty = serpent(side, standing)
    black = [(col, row) for row in range(side) for col in range(side) if (col, row) not in white | {eye, liberty}]
    front = f"(;SZ[{side}]AB" + "".join(f"[{point(*spot)}]" for spot in black) + "AW" + "".join(f"[{point(*spot)}]" for spot in sorted(white)) + "PL[B]"
    unit = unit.replace("EYE", point(*eye)).replace("LIBERTY", point(*liberty))
    return repeated(max(size, len(front) + 3 * len(unit) + 1), front, unit, ")")


def maze(size, side, standing, unit):
    """An open corridor through the board between white walls, a black stone at its one end, and copies of `unit`, in which NEXT is the point
    after that stone. The legs of the corridor lie along the rows, or stand along the columns."""
    path = set()
    for row in range(0, side, 2):
        path |= {(col, row) for col in range(side)}
        if row + 2 < side:
            path.add((side - 1 if row % 4 == 0 else 0, row + 1))
    if standing:
        path = {(row, col) for col, row in path}
    walls = [(col, row) for row in range(side) for col in range(side) if (col, row) not in path]
    front = f"(;SZ[{side}]AB[aa]AW" + "".join(f"[{point(*spot)}]" for spot in walls)
    unit = unit.replace("NEXT", "ab" if standing else "ba")
    return repeated(max(size, len(front) + 3 * len(unit) + 1), front, unit, ")")


def shafts(size):
    """On side 52, white shafts of 51 points between black walls. Stones that fill them are suicides, each of which changes 52 rows. After 25 of
    these and five quiet stones come variations of one more, so that a look at the newest colourings goes over all of these rows."""
    front = "(;SZ[52]AB" + "".join(f"[{point(col, 0)}:{point(col, 51)}]" for col in range(1, 52, 2))
    front += "AW" + "".join(f"[{point(col, 0)}:{point(col, 50)}]" for col in range(0, 50, 2))
    front += "".join(f";W[{point(col, 51)}];B[]" for col in range(0, 50, 2))
    front += "".join(f";W[{point(48, row)}];B[]" for row in range(51, 41, -2))
    return repeated(max(size, 2_000), front, f"(;W[{point(0, 51)}])", ")")


def asked(size, unit):
    """The corridor of `maze52s`, on a board all of whose points were emptied before, and 30 stones at its end. Then copies of `unit`, in which
    NEXT is the point after these. It is asked whether a stone there repeats a colouring, and the newest ones don't tell."""
    path = []
    for col in range(0, 52, 2):
        rows = range(52) if col % 4 == 0 else range(51, -1, -1)
        path += [(col, row) for row in rows]
        if col + 2 < 52:
            path.append((col + 1, 51 if col % 4 == 0 else 0))
    inside = set(path)
    walls = [(col, row) for row in range(52) for col in range(52) if (col, row) not in inside]
    front = "(;SZ[52]AB[aa:ZZ]AE[ab:aY];AE[aa:ZZ];AB[aa]AW" + "".join(f"[{point(*spot)}]" for spot in walls)
    front += "".join(f";W[{point(50, row)}];B[]" for row in range(21, 51))
    return repeated(max(size, len(front) + 200), front, unit.replace("NEXT", point(50, 51)), ")")


def fan(count):
    """A long line that very many variations share."""
    return "(;" + ";C[x]" * count + "(;)" * count + ")"


def comb(count):
    """A variation at each node of a long line."""
    return "(;(;)" * count + ")" * count


INPUTS = {
    # name: what it is, its text, and the forms whose output isn't too large for it
    "spaces": ("white space after a game", lambda n: repeated(n, "(;)", " ", ""), FORMS),
    "unclosed": ("games that aren't closed", lambda n: repeated(n, "", "(;", ""), ["list", "count"]),
    "deep100k": ("nesting of 100,000", lambda n: nested(300_000, "(;"), FORMS),
    "deep": ("nesting", lambda n: nested(n, "(;"), FORMS),
    "wide100k": ("100,000 variations of one node", lambda n: repeated(300_002, "(;", "(;)", ")"), FORMS),
    "wide": ("variations of one node", lambda n: repeated(n, "(;", "(;)", ")"), FORMS),
    "wide52": ("the same, the board of 52 not empty", lambda n: repeated(n, "(;SZ[52]AB[cc:YY]AW[aa]", "(;)", ")"), FORMS),
    "games": ("games of one empty node", lambda n: repeated(n, "", "(;)", ""), FORMS),
    "nodes": ("one line of empty nodes", lambda n: repeated(n, "(", ";", ")"), FORMS),
    "value": ("one value", lambda n: repeated(n, "(;C[", "x", "])"), FORMS),
    "escapes": ("one value of escapes", lambda n: repeated(n, "(;C[", "\\\\", "])"), FORMS),
    "breaks": ("one value of line feeds", lambda n: repeated(n, "(;C[", "\n", "])"), FORMS),
    "values": ("one property of empty values", lambda n: repeated(n, "(;C", "[]", ")"), FORMS),
    "stones": ("one property of points", lambda n: repeated(n, "(;AB", "[aa]", ")"), FORMS),
    "areas": ("one property of whole boards of 52", lambda n: repeated(n, "(;SZ[52]AB", "[aa:ZZ]", ")"), FORMS),
    "properties": ("one node of properties", lambda n: repeated(n, "(;", "A[]", ")"), FORMS),
    "name": ("lower-case letters in a name", lambda n: repeated(n, "(;G", "a", "M[1])"), FORMS),
    "letters": ("a name whose every second letter is in lower case", lambda n: repeated(n, "(;", "Aa", "[1])"), FORMS),
    "gaps": ("white space between the values of a property", lambda n: repeated(n, "(;A", "[] ", ")"), FORMS),
    "root": ("a root of half the text, and variations of it", lambda n: repeated(n, "(;" + "A[]" * (n // 6), "(;B[aa])", ")"), ["list", "count"]),
    "long19": ("one line of moves on side 19, all in one stretch", lambda n: long_line(n, 19), FORMS),
    "long52": ("one line of moves on side 52, all in one stretch", lambda n: long_line(n, 52), FORMS),
    "keys": ("one line of moves on side 52, half of whose prints have the same 16 low bits", equal_keys, ["list", "count"]),
    "right": ("one line of moves on side 52 in holes of the last two columns", far_right, ["list", "count"]),
    "prints": ("one line of moves on side 52, of colourings very many of which have the same print", lambda n: equal_prints(n, 32), ["list", "count"]),
    "low": ("one line of moves on side 52, of colourings very many of which have the same 36 low bits in their prints", lambda n: equal_prints(n, 8), ["list", "count"]),
    "costly": ("variations whose moves have the prints of colourings that take long to work out", costly, FORMS),
    "walks": ("variations whose moves have the prints of colourings to which a look-up walks through nearly all bits of a print", long_walks, FORMS),
    "shifts": ("variations whose moves have the prints of very many colourings, each of which parts from them at another point", shifts, FORMS),
    "restarts": ("setups that fill a board of 52 but for one point, and a suicide there after each",
                 lambda n: repeated(n, "(;SZ[52]", ";AB[aa:ZZ]AE[aa];B[aa]", ")"), ["list", "count"]),
    "searches": ("moves in a hole of two points in a group of 1,973 stones, whose only other liberty is far away", searches, ["list", "count"]),
    "captures": ("variations that capture 2,703 stones", lambda n: repeated(n, "(;SZ[52]AW[aa:ZZ]AE[aa]PL[B]", "(;B[aa])", ")"), ["list", "count"]),
    "boards": ("variations that set up a full board of 52", lambda n: repeated(n, "(;SZ[52]", "(;AB[aa:ZZ])", ")"), ["list", "count"]),
    "setups": ("setups that fill a board of 52, then empty it, again and again",
               lambda n: repeated(n, "(;SZ[52]", ";AB[aa:ZZ];AE[aa:ZZ]", ")"), FORMS),
    "stripes": ("columns of 52 set up, and taken away in turn", lambda n: repeated(n, "(;SZ[52]", ";AB[aa:ZZ]AW" + "".join(
        f"[{letter}a:{letter}Z]" for letter in LETTERS[::2]) + ";AE[aa:ZZ]", ")"), FORMS),
    "passes": ("passes, and a setup after each two", lambda n: repeated(n, "(", ";B[];W[];AE[aa]", ")"), FORMS),
    "script": ("setups of one point on a nearly full board of 25", lambda n: repeated(n // 64, "(;SZ[25]AB[aa:yx]", ";AB[aa]", ")"), FORMS),
    "repeats": ("variations that bring back the colouring of 73,000 turns before", repeats, ["list", "count"]),
    "open": ("variations that play one stone in a labyrinth of side 52, whose corridor is open",
             lambda n: labyrinth(n, False, "(;B[aa])"), ["list", "count"]),
    "filled": ("variations that only score that labyrinth, whose corridor one group of 1,375 stones fills",
               lambda n: labyrinth(n, True, "(;)"), ["list", "count"]),
    "chased": ("variations that play one stone beside that group, whose last liberty is then at the other end",
               lambda n: labyrinth(n, True, "(;B[aa])"), ["list", "count"]),
    "emptied": ("variations that set up one empty point at an end of that group", lambda n: labyrinth(n, True, "(;AE[aa])"), ["list", "count"]),
    "eye52": ("variations that put a stone into an eye, all of whose neighbours are of one group on side 52. Its other liberty is far away; its legs lie",
             lambda n: besieged(n, 52, False, "(;B[EYE])"), ["list", "count"]),
    "maze52": ("variations that only score an open corridor on side 52, whose legs lie",
               lambda n: maze(n, 52, False, "(;)"), ["list", "count"]),
    "eye52s": ("variations that put a stone into an eye, all of whose neighbours are of one group on side 52. Its other liberty is far away; its legs stand",
             lambda n: besieged(n, 52, True, "(;B[EYE])"), ["list", "count"]),
    "maze52s": ("variations that only score an open corridor on side 52, whose legs stand",
               lambda n: maze(n, 52, True, "(;)"), ["list", "count"]),
    "eye19": ("variations that put a stone into an eye, all of whose neighbours are of one group on side 19. Its other liberty is far away; its legs lie",
             lambda n: besieged(n, 19, False, "(;B[EYE])"), ["list", "count"]),
    "maze19": ("variations that only score an open corridor on side 19, whose legs lie",
               lambda n: maze(n, 19, False, "(;)"), ["list", "count"]),
    "eye19s": ("variations that put a stone into an eye, all of whose neighbours are of one group on side 19. Its other liberty is far away; its legs stand",
             lambda n: besieged(n, 19, True, "(;B[EYE])"), ["list", "count"]),
    "maze19s": ("variations that only score an open corridor on side 19, whose legs stand",
               lambda n: maze(n, 19, True, "(;)"), ["list", "count"]),
    "paces": ("variations that play one stone in the corridor of `maze52s`", lambda n: maze(n, 52, True, "(;B[NEXT])"), ["list", "count"]),
    "turns": ("the variations of `paces` and of `maze52s` by turns, so that each has another board than the one before it",
              lambda n: maze(n, 52, True, "(;B[NEXT])(;)"), ["list", "count"]),
    "asked": ("the variations of `paces` on points that were emptied before, so that it is asked whether each repeats a colouring",
              lambda n: asked(n, "(;W[NEXT])"), ["list", "count"]),
    "shafts": ("variations that fill a shaft of 51 points on side 52, a suicide, after 25 suicides of that kind", shafts, ["list", "count"]),
    "same": ("one line of setups that change nothing on the board of `eye52s`", lambda n: besieged(n, 52, True, ";AE[LIBERTY]"), ["list", "count"]),
    "blinks": ("one line of setups that fill the eye of `eye52s`, and empty it",
               lambda n: besieged(n, 52, True, ";AB[EYE];AE[EYE]"), ["list", "count"]),
    "siege": ("variations that take the one liberty of all black stones of `eye52s`, a suicide of 1,522 stones", lambda n: besieged(n, 52, True, "(;B[LIBERTY])"), ["list", "count"]),
    "flips": ("setups that make all points of a board of 52 black, then white, again and again",
              lambda n: repeated(n, "(;SZ[52]", ";AB[aa:ZZ];AW[aa:ZZ]", ")"), ["list", "count"]),
    "fan": ("a long line that very many variations share", lambda n: fan((n - 3) // 8), ["list", "count"]),
    "fan10k": ("the same with 10,000 of each", lambda n: fan(10_000), FORMS),
    "comb": ("a variation at each node of a long line", lambda n: comb(n // 6), ["list", "count"]),
    "comb20k": ("the same with 20,000 nodes", lambda n: comb(20_000), FORMS),
}


def run(command, gib, seconds):
    """The status, bytes written, their hash, processor seconds and peak memory in bytes of a run. The status is 'time' if it took too long."""
    limits = lambda: (resource.setrlimit(resource.RLIMIT_AS, (gib << 30, gib << 30)), resource.setrlimit(resource.RLIMIT_CPU, (seconds, seconds)))
    with tempfile.NamedTemporaryFile() as told:
        timed = ["/usr/bin/time", "-q", "-o", told.name, "-f", "%U %S %M"] + command
        program = subprocess.Popen(timed, stdin=subprocess.DEVNULL, stdout=subprocess.PIPE, stderr=subprocess.DEVNULL, preexec_fn=limits)
        written, seen = 0, hashlib.sha256()
        for piece in iter(lambda: program.stdout.read(1 << 20), b""):
            written += len(piece)
            seen.update(piece)
        status = program.wait()
        user, system, peak = re.findall(r"[0-9.]+", told.read().decode().split("\n")[-2])
    taken = float(user) + float(system)
    return "time" if taken >= seconds - 1 else status, written, seen.digest(), taken, int(peak) * 1024


def beside(form, path, arguments, status, seen):
    """What the table says of PEER's run on the same input."""
    other_status, _, other, taken, _ = run(words(PEER, form, path), arguments.limit, arguments.seconds)
    if other_status == "time":
        return "  peer: too long"
    return f"  peer {taken:.2f} s" + ("" if (status, seen) == (other_status, other) else ", OUTPUTS DIFFER")


def short(table):
    """A row for each input and size: seconds and nanoseconds per byte in each form, and the greatest memory per byte read."""
    print("\n| Input | Bytes | " + "".join(f"{form}: s, ns | " for form in FORMS) + "memory |\n" + "|---" * (3 + len(FORMS)) + "|")
    for name, size in dict.fromkeys((row[0], row[3]) for row in table):
        rows = {row[2]: row for row in table if (row[0], row[3]) == (name, size)}
        cells = []
        for form in FORMS:
            if form not in rows:
                cells.append("-")
                continue
            _, _, _, _, written, seconds, _, status = rows[form]
            ended = {"time": "too long", "4": "no memory"}.get(str(status))
            cells.append(ended or f"{seconds:.2f}, {seconds * 1e9 / (size + written):.0f}")
        what = next(iter(rows.values()))[1]
        print(f"| `{name}`: {what} | {size:,} | " + " | ".join(cells) + f" | {max(row[6] for row in rows.values()) / size:.0f} |")


def earlier(path):
    with open(path, encoding="utf-8") as file:
        for line in file:
            name, what, form, size, written, seconds, peak, status = line.rstrip("\n").split("\t")
            yield name, what, form, int(size), int(written), float(seconds), int(peak), status


def measure(name, path, arguments):
    """Runs the forms of an input, and prints a row for each. Yields the rows of the table."""
    what, _, forms = INPUTS[name]
    size = os.path.getsize(path)
    for form in FORMS if arguments.large else forms:
        if arguments.forms and form not in arguments.forms.split(","):
            continue
        status, written, seen, seconds, peak = run(words(PROGRAM, form, path), arguments.limit, arguments.seconds)
        print(f"{name:12}{form:6}{size:10}{written:12}{seconds:9.2f}{seconds * 1e9 / (size + written):9.1f}{peak / 2**20:9.0f}{peak / size:9.1f}"
              + (f"  status {status}" if status else "") + (beside(form, path, arguments, status, seen) if PEER else ""), flush=True)
        yield name, what, form, size, written, seconds, peak, status


def main():
    parser = argparse.ArgumentParser()
    parser.add_argument("--mib", default="64")
    parser.add_argument("--only")
    parser.add_argument("--forms")
    parser.add_argument("--large", action="store_true")
    parser.add_argument("--limit", type=int, default=16)
    parser.add_argument("--seconds", type=int, default=300)
    parser.add_argument("--table")
    parser.add_argument("--from", dest="earlier")
    arguments = parser.parse_args()
    if arguments.earlier:
        short(list(earlier(arguments.earlier)))
        return
    if not os.path.exists("/usr/bin/time"):
        sys.exit("/usr/bin/time isn't installed")
    names = arguments.only.split(",") if arguments.only else list(INPUTS)
    table = []
    print(f"{'input':12}{'form':6}{'bytes':>10}{'written':>12}{'cpu s':>9}{'ns/byte':>9}{'MiB':>9}{'per byte':>9}")
    with tempfile.TemporaryDirectory() as folder:
        path = os.path.join(folder, "input.sgf")
        for name in names:
            for mib in arguments.mib.split(","):
                progress(f"making {name}, {mib} MiB")
                with open(path, "w", encoding="ascii", newline="") as file:
                    file.write(INPUTS[name][1](min(int(float(mib) * (1 << 20)), LIMIT)))
                table += measure(name, path, arguments)
    if arguments.table:
        with open(arguments.table, "w", encoding="utf-8") as file:
            for row in table:
                file.write("\t".join(map(str, row)) + "\n")
    short(table)


if __name__ == "__main__":
    main()
