"""The picture of the rooted programs: steps, time and time beside the peer's against the nodes of the host. All axes are logarithmic."""
from math import log10

COLOURS = ["#1b6ca8", "#c1440e", "#2e8b57", "#8e44ad", "#b8860b", "#444444"]
WIDTH, HEIGHT, MARGIN, RIGHT, TOP = 400, 380, 56, 16, 40
POWERS = [10 ** power for power in range(12)]
RATIOS = (0.5, 1, 2, 4)
NODES = (4, 8, 16, 32, 64, 128)


def panel(left, title, ticks, text, tracks, also=()):
    """One panel: for each program a track of nodes and values. Lines stand at the ticks, with their text. The axis goes from the least
    to the greatest of the values and of those that are to be shown also."""
    nodes = [log10(n) for track in tracks for n, _ in track]
    values = [log10(v) for track in tracks for _, v in track] + [log10(v) for v in also]
    low_x, high_x, low_y, high_y = min(nodes), max(nodes), min(values), max(values)

    def across(n):
        return left + MARGIN + (log10(n) - low_x) / (high_x - low_x) * (WIDTH - MARGIN - RIGHT)

    def down(v):
        return HEIGHT - MARGIN - (log10(v) - low_y) / (high_y - low_y) * (HEIGHT - MARGIN - TOP - 10)

    def line(x1, y1, x2, y2):
        return f'<line x1="{x1:.1f}" y1="{y1:.1f}" x2="{x2:.1f}" y2="{y2:.1f}" stroke="#ddd"/>'

    yield f'<text x="{left + WIDTH / 2}" y="22" text-anchor="middle" font-size="15">{title}</text>'
    yield f'<text x="{left + WIDTH / 2}" y="{HEIGHT - 12}" text-anchor="middle">nodes of the host</text>'
    for n in NODES:
        if low_x <= log10(n) <= high_x:
            yield line(across(n), TOP, across(n), HEIGHT - MARGIN)
            yield f'<text x="{across(n):.1f}" y="{HEIGHT - MARGIN + 16}" text-anchor="middle">{n}</text>'
    for tick in ticks:
        if low_y <= log10(tick) <= high_y:
            yield line(left + MARGIN, down(tick), left + WIDTH - RIGHT, down(tick))
            yield f'<text x="{left + MARGIN - 6}" y="{down(tick) + 4:.1f}" text-anchor="end">{text(tick)}</text>'
    for track, colour in zip(tracks, COLOURS):
        points = " ".join(f"{across(n):.1f},{down(v):.1f}" for n, v in track)
        yield f'<polyline points="{points}" fill="none" stroke="{colour}" stroke-width="2"/>'


def plot(path, code, programs):
    """Writes the picture of programs, each a name and a track of nodes and what was measured there; `code` says what code it was."""
    def tracks(value):
        return [[(n, value(measured)) for n, measured in track] for _, track in programs]

    parts = [
        *panel(0, "Steps", POWERS, lambda v: f"{v:g}", tracks(lambda m: m.steps)),
        *panel(WIDTH, f"Time of a run, {code}", POWERS, lambda v: f"{v / 1e6:g} ms", tracks(lambda m: m.proved)),
        *panel(2 * WIDTH, "Time as a multiple of the peer's", RATIOS, lambda v: f"{v:g}", tracks(lambda m: m.proved / m.clang), RATIOS[:3]),
    ]
    for k, ((name, _), colour) in enumerate(zip(programs, COLOURS)):
        x, y = 60 + k * 180, HEIGHT + 14
        parts.append(f'<line x1="{x}" y1="{y}" x2="{x + 18}" y2="{y}" stroke="{colour}" stroke-width="3"/>')
        parts.append(f'<text x="{x + 24}" y="{y + 4}">{name}</text>')
    with open(path, "w") as file:
        file.write(f'<svg xmlns="http://www.w3.org/2000/svg" width="{3 * WIDTH}" height="{HEIGHT + 34}" '
                   f'font-family="sans-serif" font-size="12"><rect width="100%" height="100%" fill="white"/>')
        file.write("\n".join(parts) + "</svg>\n")
