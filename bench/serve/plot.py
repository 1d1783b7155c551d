"""The rates of the servers over their connections, as a drawing in SVG."""
from sheet import SERVERS, middle

WIDTH, HEIGHT, LEFT, TOP, GAP = 300, 200, 60, 40, 80
CONNECTIONS = (1, 2, 4, 8, 16, 64)
COLOURS = {"poad": "#c0392b", "omniORB": "#2c6fbb"}


def text(x, y, words, anchor="middle"):
    return f'<text x="{x:.0f}" y="{y:.0f}" text-anchor="{anchor}">{words}</text>'


def line(x, y, to_x, to_y):
    return f'<line x1="{x:.0f}" y1="{y:.0f}" x2="{to_x:.0f}" y2="{to_y:.0f}" stroke="#bbb"/>'


def step_of(most):
    """A round step of which at most six reach over the most."""
    return next(step for step in (10, 20, 50, 100, 200, 500, 1000) if most <= 6 * step)


class Panel:
    """The rates at one depth, in thousands a second."""

    def __init__(self, left, depth, rates):
        self.left, self.depth, self.rates = left, depth, rates
        self.step = step_of(max(max(some) for some in rates.values()))
        self.top = self.step * -(-max(max(some) for some in rates.values()) // self.step)

    def x(self, at):
        return self.left + at * WIDTH / (len(CONNECTIONS) - 1)

    def y(self, rate):
        return TOP + HEIGHT * (1 - rate / self.top)

    def grid(self):
        for rate in range(0, int(self.top) + 1, self.step):
            yield line(self.left, self.y(rate), self.left + WIDTH, self.y(rate))
            yield text(self.left - 8, self.y(rate) + 4, rate, "end")
        for at, connections in enumerate(CONNECTIONS):
            yield text(self.x(at), TOP + HEIGHT + 18, connections)
        yield text(self.left + WIDTH / 2, TOP + HEIGHT + 38, "connections")
        yield text(self.left + WIDTH / 2, TOP - 16, f"thousand calls a second, {self.depth} at a time")

    def curves(self):
        for at, (server, rates) in enumerate(self.rates.items()):
            points = " ".join(f"{self.x(i):.0f},{self.y(rate):.0f}" for i, rate in enumerate(rates))
            yield f'<polyline points="{points}" fill="none" stroke="{COLOURS[server]}" stroke-width="2"/>'
            y = TOP + HEIGHT + 58
            yield f'<g fill="{COLOURS[server]}">{text(self.left + WIDTH * (1 + at) / 3, y, server)}</g>'


def drawing(figures, call):
    """The rates of a call, a panel for each depth."""
    width, height = 2 * (LEFT + WIDTH) + GAP, TOP + HEIGHT + 70
    parts = [f'<rect width="{width}" height="{height}" fill="white"/>']
    for at, depth in enumerate((1, 16)):
        rates = {
            server: [middle(figures[server, call, (depth, count)]).rate / 1e3 for count in CONNECTIONS]
            for server in SERVERS
        }
        panel = Panel(LEFT + at * (WIDTH + GAP), depth, rates)
        parts += [*panel.grid(), *panel.curves()]
    head = f'<svg xmlns="http://www.w3.org/2000/svg" width="{width}" height="{height}" font-family="sans-serif" font-size="12">'
    return "\n".join([head, *parts, "</svg>\n"])
