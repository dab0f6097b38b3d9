#!/usr/bin/env python3
"""Says what the examples are to give, by models that know nothing of the programs or of hepasync:
`rows.py` compares the files .rows with the models, `rows.py --write` writes them."""
import pathlib
import sys

HERE = pathlib.Path(__file__).resolve().parent


def over(a, b):
    """Division that truncates towards zero."""
    return abs(a) // b * (1 if a >= 0 else -1)


def held_at(x, least, most):
    return max(least, min(most, x))


def delayed_sum(trace):
    return [[sum(x for [x] in trace[:t])] for t in range(len(trace))]


def integrator(trace):
    total = 0
    for u, most, clear in trace:
        total = held_at((0 if clear else total) + u, -most, most)
        yield [total]


def low_pass_filter(trace):
    state = 0
    for [x] in trace:
        state += over(256 * x - state, 16)
        yield [over(state, 256)]


def debouncer(trace):
    clean, seen = False, []
    for [raw] in trace:
        seen = seen + [raw] if raw != clean else []
        if len(seen) == 3:
            clean, seen = raw, []
        yield [clean]


def pi_controller(trace):
    integral = 0
    for goal, measured in trace:
        error = goal - measured
        wanted = over(896 * error + integral + 64 * error, 256)
        held = not -1000 <= wanted <= 1000
        integral += 0 if held else 64 * error
        yield [held_at(wanted, -1000, 1000), held]


def rate_limiter(trace):
    y = 0
    for x, step in trace:
        y += held_at(x - y, -step, step)
        yield [y]


def watchdog(trace):
    missed, alarm = 0, False
    for alive, acknowledge in trace:
        missed = 0 if alive else missed + 1
        alarm = missed >= 4 or alarm and not (alive and acknowledge)
        yield [alarm, max(0, 4 - missed)]


def hysteresis(trace):
    heat = "Off"
    for temperature, low, high in trace:
        heat = "On" if temperature < low else "Off" if temperature > high else heat
        yield [heat]


def voter(trace):
    for row in trace:
        least, middle, most = sorted(row)
        yield [middle, most - least > 10]


def launch_sequence(trace):
    phase, left, following = None, 3, "Idle"
    for arm, start, hold, abort in trace:
        phase = "Safe" if abort and following != "Idle" else following
        if phase == "Counting" and not hold:
            left -= 1
        yield [phase, left, phase == "Firing"]
        following = phase
        if phase == "Idle" and arm:
            following = "Armed"
        elif phase == "Armed":
            following = "Counting" if start else "Armed" if arm else "Idle"
        elif phase == "Counting" and left == 0:
            following = "Firing"


def thermostat(trace):
    heats = False
    for mode, temperature in trace:
        goal = {"Off": 50, "Eco": 170, "Comfort": 210}[mode]
        heats = heats and mode != "Off"
        yield [goal, heats]
        if heats:
            heats = temperature <= goal + 5
        else:
            heats = mode != "Off" and temperature < goal - 5


def star_tracker(trace):
    """The estimate of each tenth instant is known from ten instants later on."""
    known, attitude, coming, is_near = 0, 0, 0, False
    for t, (gyro, star) in enumerate(trace):
        if t % 10 == 0:
            known, attitude = coming, star + over(attitude, 2)
            coming = attitude
        is_near = is_near and abs(known) < 100
        if is_near:
            yield [-over(known, 16) - over(gyro, 2), "Fine"]
        else:
            yield [-over(known, 4) - gyro, "Coarse"]
            is_near = abs(known) < 100


def cascade(trace):
    total = held = speed = 0
    for t, (mode, goal, place, manual) in enumerate(trace):
        tick = mode == "Auto" and t % 4 == 0
        if tick:
            total += goal - place
            held = over(goal - place, 2) + over(total, 8)
        speed += over((held if mode == "Auto" else manual) - speed, 2)
        yield [speed, tick]


def read(word):
    if word in ("true", "false"):
        return word == "true"
    return int(word) if word.lstrip("-").isdigit() else word


def shown(value):
    return str(value).lower() if isinstance(value, bool) else str(value)


def main():
    models = [delayed_sum, integrator, low_pass_filter, debouncer, pi_controller, rate_limiter, watchdog]
    models += [hysteresis, cascade, voter, launch_sequence, thermostat, star_tracker]
    wrong = 0
    for model in models:
        name = model.__name__
        lines = (HERE / name / f"{name}.trace").read_text().splitlines()
        rows = model([[read(word) for word in line.split()] for line in lines])
        text = "".join(" ".join(map(shown, row)) + "\n" for row in rows)
        file = HERE / name / f"{name}.rows"
        if sys.argv[1:] == ["--write"]:
            file.write_text(text)
        elif not file.exists() or file.read_text() != text:
            print(f"{name}.rows is not what the model gives")
            wrong = 1
    return wrong


sys.exit(main())
