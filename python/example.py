"""Ten lines: from a list of nights to the nights that are not in the mean, with the reason of each, and the mean."""
import meter

order, h = 3, [8, 0, -4, 0, 0, 0, 0]
heard = meter.predict(h, order)
louder = [3 * v for v in heard]
hit = heard[:4] + [8388607] + heard[5:]
nights = [(1, heard), (2, hit), (3, [5, 4, 7, 5, 6, 5, 3]), (4, hit), (5, heard[:6]), (2, louder), (6, heard)]
mean, not_in_mean = meter.trend(nights, order, capacity=2)
for day, reason in not_in_mean.items():
    print(f"not in the mean: day {day}, {reason}")
print("mean", mean)
